module 0x1::vault {
    /// The most that a vault holds.
    const MOST: u64 = 1000;

    /// Holds coins.
    struct Vault has key { coins: u64 }

    /** Adds coins; aborts where they are too many. */
    public fun add(vault: &mut Vault, coins: u64) {
        assert!(vault.coins + coins <= MOST, 1);
        vault.coins = vault.coins + coins;
    }

    fun is_full(vault: &Vault): bool { vault.coins == MOST }
}
