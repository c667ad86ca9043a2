//! Every page border, every page's first and last byte, and all copies at
//! once.

use simulator::generate::draft::step;
use simulator::generate::Draft;
use simulator::Step;

use super::{draft, played, Limit};

pub fn all() -> Vec<Limit> {
    let mut all: Vec<Limit> = (0..7).flat_map(borders).collect();
    all.extend((0..8).flat_map(|page| played("the edges of a page", &edges(page))));
    all.extend((0..8).flat_map(|page| played("a whole page", &whole_page(page))));
    all.extend(played("all copies at once", &all_copies()));
    all.extend((0..4).flat_map(|part| played("every address", &every_address(part))));
    all
}

/// Loads and stores over the border behind a page.
fn borders(page: u16) -> Vec<Limit> {
    let mut all = Vec::new();
    for copied in 0..4 {
        let load = over_border(page, copied, 17);
        all.extend(played("a load over a page border", &load));
        let store = over_border(page, copied, 18);
        all.extend(played("a store over a page border", &store));
    }
    all
}

/// Copies neither page at a border, the lower one (1), the upper one (2) or
/// both, by a store beside the border. Then a word over the border is loaded,
/// and kept where it shows, or stored. A second worker stores beside it.
fn over_border(page: u16, copied: u16, op: u8) -> Draft {
    let border = 256 * page + 255;
    let mut own = vec![step(16, 1, 0xA1B2), step(16, 0, 0xC3D4)];
    if copied & 1 != 0 {
        own.push(step(18, 1, border - 1));
    }
    if copied & 2 != 0 {
        own.push(step(18, 1, border + 1));
    }
    own.push(step(op, 0, border));
    own.push(step(18, 0, 256 * page + 100));
    own.push(step(17, 2, border + 1));
    own.push(step(18, 2, 256 * page + 104));
    let beside = [-6, 6].map(|far| step(18, 3, border.wrapping_add_signed(far)));
    draft(&[], vec![own, beside.to_vec()])
}

/// Loads and stores of a page's first two and last two bytes. A worker with an
/// older copy of the page commits behind them and must not write them again.
fn edges(page: u16) -> Draft {
    let (first, last) = (256 * page, 256 * page + 254);
    let own = vec![
        step(17, 0, first),
        step(17, 1, last),
        step(16, 2, 0x5E6F),
        step(18, 2, first),
        step(18, 2, last),
        step(18, 0, first + 50),
        step(18, 1, first + 60),
    ];
    let seen = vec![
        step(32, 0, 0),
        step(17, 0, first),
        step(17, 1, last),
        step(18, 1, first + 70),
        step(18, 0, first + 80),
        step(33, 0, 0),
    ];
    let older = vec![step(18, 0, first + 120)];
    draft(&[], vec![own, older, seen])
}

/// Each worker stores a word of its own in each page and loads it again, all
/// of them before the first commit.
fn all_copies() -> Draft {
    draft(&[], (0..8).map(everywhere).collect())
}

fn everywhere(worker: u16) -> Vec<Step> {
    let at = |page: u16| 256 * page + 16 * worker;
    let word = |page: u16| 0x1000 * (worker + 1) + 0x11 * (page + 1);
    let store = |page| [step(16, 0, word(page)), step(18, 0, at(page))];
    let load = |page| [step(17, 1, at(page)), step(18, 1, at(page) + 4)];
    let mut own: Vec<Step> = (0..8).flat_map(store).collect();
    own.extend((0..8).flat_map(load));
    own
}

/// One of four parts, in which every address is loaded from once and every
/// one, being five times as far, stored to once. 2,048 pairs are one too many,
/// and the last address comes up twice.
fn every_address(part: u16) -> Draft {
    let pair = |place: u32| {
        let from = place.min(2_046);
        let to = (5 * from + 3) % 2_047;
        let register = (place % 4) as u8;
        [
            step(17, register, from as u16),
            step(18, register, to as u16),
        ]
    };
    let own = |worker: u16| {
        let first = u32::from(512 * part + 64 * worker);
        (first..first + 64).flat_map(pair).collect()
    };
    draft(&[], (0..8).map(own).collect())
}

/// One worker changes every byte of a page, one all but one, and one none,
/// since it stores what it has loaded. Registers that nobody has set are
/// zero, and no byte of memory is.
fn whole_page(page: u16) -> Draft {
    let at = |place: u16| 256 * page + 2 * place;
    let every: Vec<Step> = (0..128).map(|place| step(18, 0, at(place))).collect();
    let mut but_one = every.clone();
    but_one[127].number -= 1;
    let none = vec![step(17, 0, at(9)), step(18, 0, at(9))];
    draft(&[], vec![none, but_one, every])
}
