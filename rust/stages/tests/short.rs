//! Pairs of bundles for short proofs: the two ways in Rust to find the next one
//! agree, and the pairs are of every sort.

use reference::{search_next_proof, ShortProofs};
use stages::build::header;
use stages::rng::Rng;
use stages::short::pair;

/// Every table of some pairs from the header on, and that none follows the last.
/// Gives how many pairs had one, and the tables in all.
fn walk(rng: &mut Rng, constraints: usize, pairs: usize) -> (usize, usize) {
    let (mut proved, mut tables) = (0, 0);
    for _ in 0..pairs {
        let pair = pair(rng, constraints);
        let proofs = ShortProofs::of(&pair.a, &pair.b).expect("at most four constraints");
        let mut table = header(pair.k);
        for next in proofs.tables() {
            let mut out = [0xA5; 32];
            let found = search_next_proof(&pair.a, &pair.b, &table, &mut out);
            assert_eq!((found.answer.number, found.written), (0, next.len()));
            assert_eq!(out[..found.written], **next);
            table.clone_from(next);
        }
        let end = search_next_proof(&pair.a, &pair.b, &table, &mut []).answer;
        assert_eq!((end.number, end.file, end.place), (33, 4, 0));
        proved += usize::from(!proofs.tables().is_empty());
        tables += proofs.tables().len();
    }
    (proved, tables)
}

#[test]
fn the_search_finds_every_short_proof_in_order() {
    let mut rng = Rng::new(1);
    let (proved, tables) = walk(&mut rng, 1, 300);
    assert!(
        proved > 50 && proved < 250 && tables > 10_000,
        "{proved}, {tables}"
    );
    let (proved, tables) = walk(&mut rng, 2, 100);
    assert!(
        proved > 30 && proved < 90 && tables > 20_000,
        "{proved}, {tables}"
    );
    let (proved, tables) = walk(&mut rng, 3, 10);
    assert!(proved > 3 && tables > 10_000, "{proved}, {tables}");
    let (proved, tables) = walk(&mut rng, 4, 3);
    assert!(proved > 0 && tables > 10_000, "{proved}, {tables}");
}
