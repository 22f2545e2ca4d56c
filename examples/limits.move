const LIMIT: u64 = 1_000;
const HALF: u16 = 500u16;
