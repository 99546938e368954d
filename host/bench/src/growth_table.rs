//! The table of growth: ratios first, then the least times.

use crate::growth::{Point, Way};
use crate::table::figure;
use crate::timing::{Three, Times};

pub const HEADINGS: &str = "\
proved/plain       simple/proved         load, microseconds               read number, nanoseconds   take, nanoseconds
 load  read  take    load   read   take   proved    plain      simple     proved plain   simple     proved plain   simple   lines roles users cards";

fn print_row(point: &Point) {
    let least = |times: Three<Times>| times.map(|times| times.least);
    let kinds = [point.load, point.read_number, point.take].map(least);
    for [proved, plain, _] in kinds {
        print!("{:5.2} ", proved / plain);
    }
    for [proved, _, simple] in kinds {
        print!("{:>7}", figure(simple / proved));
    }
    let [proved, plain, simple] = kinds[0].map(|time| figure(time / 1000.0));
    print!("{proved:>9}{plain:>9}{simple:>12}  ");
    for kind in &kinds[1..] {
        let [proved, plain, simple] = kind.map(figure);
        print!("{proved:>7}{plain:>6}{simple:>9}    ");
    }
    let size = point.size;
    let counts = [size.lines, size.roles, size.users, size.cards];
    println!("{}", counts.map(|count| format!("{count:6}")).concat());
}

pub fn print(way: &Way, points: &[Point]) {
    println!("with {}", way.title);
    points.iter().for_each(print_row);
}
