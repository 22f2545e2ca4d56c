/// Moves coins.
fun pay<T>(from: &mut Purse<T>, amount: u64): (Coin<T>, bool) {}
