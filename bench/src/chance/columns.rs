//! Random columns of charges and energies.

use super::Chance;

const MAX_TOTAL: u64 = 100_000_000;

/// The four columns of a disbursement or a recovery, as fields.
pub fn columns(chance: &mut Chance) -> String {
    let mut columns = right(chance);
    if chance.percent(8) {
        spoil(chance, &mut columns);
    }
    let words: Vec<String> = columns.iter().flatten().map(u64::to_string).collect();
    words.join(" ")
}

/// Columns that can be shared: a charge of a sort has energy of its sort.
fn right(chance: &mut Chance) -> [[u64; 32]; 4] {
    let mut columns = [[0; 32]; 4];
    let sorts = chance.pick(&[1, 2, 3, 3, 3]);
    for sort in 0..2 {
        let most = chance.pick(&[1, 3, 10, 1_000, MAX_TOTAL / 32]);
        let among = chance.pick(&[1, 3, 32]);
        if sorts & (1 << sort) != 0 {
            charge(chance, &mut columns, sort, most, among);
        }
        stray_energy(chance, &mut columns[2 + sort], most);
    }
    if chance.percent(10) {
        fill_up(chance, &mut columns);
    }
    columns
}

/// Charges of one sort, each with energy beside it or not, one at least.
fn charge(chance: &mut Chance, columns: &mut [[u64; 32]; 4], sort: usize, most: u64, among: u64) {
    for turn in 0..among {
        let who = chance.below(32) as usize;
        columns[sort][who] = chance.range(1, most);
        columns[2 + sort][who] = chance.range(u64::from(turn == 0), most);
    }
    let eligible = (0..32).any(|who| columns[sort][who] > 0 && columns[2 + sort][who] > 0);
    if !eligible {
        let who = (0..32).find(|&who| columns[sort][who] > 0).unwrap_or(0);
        columns[2 + sort][who] = 1;
    }
}

/// Energy of somebody who may have no charge.
fn stray_energy(chance: &mut Chance, energies: &mut [u64; 32], most: u64) {
    if chance.percent(40) {
        energies[chance.below(32) as usize] = chance.range(1, most);
    }
}

/// Brings each column that has anything to its largest total.
fn fill_up(chance: &mut Chance, columns: &mut [[u64; 32]; 4]) {
    for column in columns {
        let left = MAX_TOTAL - column.iter().sum::<u64>();
        let at = chance.below(32) as usize;
        if column[at] > 0 {
            column[at] += left;
        }
    }
}

fn spoil(chance: &mut Chance, columns: &mut [[u64; 32]; 4]) {
    let at = chance.below(4) as usize;
    let who = chance.below(32) as usize;
    match chance.below(4) {
        0 => columns[at][who] = chance.pick(&[MAX_TOTAL + 1, 4_294_967_295]),
        1 => columns[at].iter_mut().for_each(|word| *word = MAX_TOTAL / 32 + 1),
        2 => columns[2 + at % 2] = [0; 32],
        _ => (columns[0], columns[1]) = ([0; 32], [0; 32]),
    }
}
