//! How times grow with lines, roles and cards.

use crate::calls::Kind;
use crate::cases::{case, Case};
use crate::draw::Draw;
use crate::loads::{self, agree, ALL};
use crate::seats::Seats;
use crate::sizes::{Size, LARGEST};
use crate::timing::{Three, Times};
use crate::versions;
use second_checker::generate::write;

/// Files that grow in one way.
pub struct Way {
    /// What grows, and what else the files have.
    pub title: &'static str,
    pub count: fn(Size) -> usize,
    sizes: fn() -> Vec<Size>,
}

pub const WAYS: [Way; 3] = [
    Way {
        title: "lines (roles, users and cards in proportion)",
        count: |size| size.lines,
        sizes: by_lines,
    },
    Way {
        title: "roles (2,900 lines, 512 cards)",
        count: |size| size.roles,
        sizes: || {
            let sized = |roles| Size { roles, ..LARGEST };
            [8, 16, 32, 64, 128].map(sized).to_vec()
        },
    },
    Way {
        title: "cards (2,900 lines, 128 roles)",
        count: |size| size.cards,
        sizes: || {
            let sized = |cards| Size { cards, ..LARGEST };
            [32, 64, 128, 256, 512].map(sized).to_vec()
        },
    },
];

/// Counts double as lines do.
fn by_lines() -> Vec<Size> {
    let lines = [100, 200, 400, 800, 1600, 2900];
    let sized = |(turn, lines)| Size {
        lines,
        roles: 4usize << turn,
        users: 8usize << turn,
        cards: 16usize << turn,
    };
    lines.into_iter().enumerate().map(sized).collect()
}

/// The times with one file.
pub struct Point {
    pub size: Size,
    pub load: Three<Times>,
    pub read_number: Three<Times>,
    pub take: Three<Times>,
}

/// Calls that are granted, in sessions that hold all roles their users may take.
fn cases(size: Size) -> [Case; 2] {
    let seats = Seats::Entitled {
        users: size.users as u16,
        roles: size.roles as u16,
    };
    [
        case("read number", seats, Kind::ReadNumber, 0, Draw::part),
        case("take a role held", seats, Kind::Take, 0, Draw::role),
    ]
}

/// Checks for each file that the versions agree, and times them.
pub fn measure(way: &Way, rounds: usize) -> Vec<Point> {
    let sizes = (way.sizes)();
    let files: Vec<_> = sizes.iter().map(|size| size.file()).collect();
    let bytes: Vec<_> = files.iter().map(write).collect();
    let bytes: Vec<&[u8]> = bytes.iter().map(Vec::as_slice).collect();
    bytes.iter().for_each(|file| agree(file, 0));
    let loads = loads::measure(ALL, &bytes, rounds);
    let files = sizes.into_iter().zip(files).zip(loads);
    let point = |((size, file), load)| {
        let calls = cases(size).map(|case| versions::measure(&case, &file, rounds));
        let [read_number, take] = calls;
        Point {
            size,
            load,
            read_number,
            take,
        }
    };
    files.map(point).collect()
}
