fun pay(from: &mut Purse<T, amount: u64) {
    b"not closed
