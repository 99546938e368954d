//! Document 01's cases about sessions and document 02's senior reviewer, worked
//! out by hand, on the library and on the model alike.

use monitor_model::{Model, STATE_BYTES};
use monitor_tests::call::{Answer, Call};
use monitor_tests::generate::reading;
use monitor_tests::library::{Figure, Verdict};
use second_checker::example::{example, role_file, single_blanks, BESIDE, REVIEWER};
use second_checker::random::Random;

/// Both sides with the same file loaded.
struct Both {
    model: Model,
    model_store: Vec<u8>,
    state: Vec<u8>,
    store: Vec<u8>,
    random: Random,
}

impl Both {
    #[track_caller]
    fn loaded(text: &str, cards: usize) -> Both {
        let mut both = Both {
            model: Model::default(),
            model_store: vec![b'.'; 64 * cards],
            state: vec![0; STATE_BYTES],
            store: vec![b'.'; 64 * cards],
            random: Random::new(3),
        };
        both.load(text, [0, 0, 0]);
        both
    }

    #[track_caller]
    fn answers(&mut self, call: Call, expected: Answer) {
        let model = call.on_model(&mut self.model, STATE_BYTES, &mut self.model_store);
        assert_eq!(model, expected, "the model: {call}");
        let library = call
            .on_library(&mut self.state, &mut self.store, &mut self.random)
            .unwrap();
        assert_eq!(library, expected, "the library: {call}");
        assert!(self.store == self.model_store, "the store after {call}");
    }

    #[track_caller]
    fn load(&mut self, text: &str, expected: [u64; 3]) {
        let [number, first, second] = expected;
        let file = role_file(text);
        self.answers(
            Call::Load { file },
            Answer::Verdict(Verdict {
                number,
                first,
                second,
            }),
        );
    }

    #[track_caller]
    fn open(&mut self, place: u64, user: u64, label: u64, expected: u64) {
        let call = Call::Open { place, user, label };
        self.answers(call, Answer::Number(expected));
    }

    #[track_caller]
    fn close(&mut self, place: u64, expected: u64) {
        self.answers(Call::Close { place }, Answer::Number(expected));
    }

    #[track_caller]
    fn take(&mut self, place: u64, role: u64, expected: u64) {
        self.answers(Call::Take { place, role }, Answer::Number(expected));
    }

    #[track_caller]
    fn drop_role(&mut self, place: u64, role: u64, expected: u64) {
        self.answers(Call::Drop { place, role }, Answer::Number(expected));
    }

    #[track_caller]
    fn read(&mut self, place: u64, card: u64, span: (u64, u64), expected: u64) {
        self.answers(reading(place, card, span), Answer::Number(expected));
    }

    #[track_caller]
    fn write(&mut self, place: u64, card: u64, offset: u64, bytes: &[u8], expected: u64) {
        let call = Call::Write {
            place,
            card,
            offset,
            bytes: bytes.to_vec(),
        };
        self.answers(call, Answer::Number(expected));
    }

    #[track_caller]
    fn flows(&mut self, from: u64, to: u64, number: u64, figure: u64) {
        let figure = Figure { number, figure };
        self.answers(Call::Flows { from, to }, Answer::Figure(figure));
    }

    #[track_caller]
    fn circle(&mut self, role: u64) {
        let figure = Figure {
            number: 0,
            figure: role,
        };
        self.answers(Call::Circle, Answer::Figure(figure));
    }
}

/// "user 1 at label 1 takes role 2, writes card 2: 0, reads card 2: 29", for
/// the example and for "user 1 cleared to 1 instead".
#[test]
fn writing_up_without_reading_up() {
    for clearance in ["U 1 2", "U 1 1"] {
        let mut both = Both::loaded(&example().replace("U 1 2", clearance), 2);
        both.open(1, 1, 1, 0);
        both.take(1, 2, 0);
        both.write(1, 2, 0, b"valve", 0);
        assert_eq!(both.store[64..70], *b"valve.");
        both.read(1, 2, (0, 5), 29);
        // Role 1's read is inherited.
        both.read(1, 1, (0, 64), 0);
        both.write(1, 1, 0, b"valve", 29);
    }
}

/// "offset 60, length 4: 0; length 5: 30; offset 64, length 0: 0"
#[test]
fn offset_and_length() {
    let mut both = Both::loaded(&example(), 2);
    both.open(1, 1, 1, 0);
    both.take(1, 2, 0);
    both.read(1, 1, (60, 4), 0);
    both.read(1, 1, (60, 5), 30);
    both.read(1, 1, (64, 0), 0);
    both.read(1, 1, (65, 0), 30);
    both.read(1, 1, (u64::MAX, 1), 30);
    both.read(1, 1, (1, u64::MAX), 30);
    both.read(1, 1, (1 << 63, 1 << 63), 30);
    both.write(1, 2, 60, b"hose", 0);
    both.write(1, 2, 60, b"hoses", 30);
    both.write(1, 2, 64, b"", 0);
    both.write(1, 2, 65, b"", 30);
    both.write(1, 2, u64::MAX, b"h", 30);
    both.write(1, 2, 0, &[b'x'; 64], 0);
    both.write(1, 2, 0, &[b'x'; 65], 30);
}

/// "Checking a role at opening only, or comparing clearance where the
/// session's label is meant."
#[test]
fn the_label_and_not_the_clearance() {
    // Role 1 reads card 2, whose label is 2; role 2 is its senior.
    let text = example().replace("P 1 1 1", "P 1 1 1\nP 1 2 1");
    let mut both = Both::loaded(&text, 2);
    both.open(1, 1, 1, 0);
    both.take(1, 1, 28);
    both.take(1, 2, 28);
    both.close(1, 0);
    both.open(1, 1, 2, 0);
    both.take(1, 1, 0);
    both.read(1, 2, (0, 64), 0);
}

/// "A reviewer with a high clearance opens a low session to correct a published
/// card": role 2 writes card 1 too, so that its w-level is 1.
#[test]
fn a_senior_reviewer_corrects_a_low_card() {
    let mut both = Both::loaded(&single_blanks(REVIEWER), 2);
    both.open(1, 1, 1, 0);
    both.take(1, 2, 0);
    both.write(1, 1, 0, b"valve", 0);
    assert_eq!(both.store[..6], *b"valve.");
    both.read(1, 1, (0, 5), 0);
    both.write(1, 2, 0, b"valve", 0);
    both.read(1, 2, (0, 5), 29);
    // At her clearance she may only read card 1, by role 1.
    both.open(2, 1, 2, 0);
    both.take(2, 2, 28);
    both.take(2, 1, 0);
    both.read(2, 1, (0, 5), 0);
    both.write(2, 1, 0, b"valve", 29);
}

/// Role 1 reads card 2 and its senior, role 2, writes card 1: no label serves.
#[test]
fn a_role_that_no_session_could_take() {
    let text = example()
        .replace("P 1 1 1", "P 1 2 1")
        .replace("P 2 2 2", "P 2 1 2");
    let mut both = Both::loaded(&text.replace("A 1 2", "A 1 1"), 2);
    both.load(&text, [16, 1, 2]);
    // Labels 1 and 2 under 3: a user cleared to 1, a role that writes at 2.
    let beside = single_blanks(BESIDE);
    both.load(&beside, [16, 1, 1]);
    both.load(&beside.replace("U 1 1", "U 1 3"), [0, 0, 0]);
    both.open(1, 1, 3, 0);
    both.take(1, 1, 28);
    both.open(2, 1, 1, 0);
    both.take(2, 1, 28);
    both.open(3, 1, 2, 0);
    both.take(3, 1, 0);
    both.write(3, 1, 0, b"valve", 0);
}

/// "27: neither the role nor a senior of it is assigned to the user"
#[test]
fn membership() {
    // A chain 3 over 2 over 1, role 2 assigned, role 4 apart.
    let text = "H 1 4 2 1
        S 2 1
        S 3 2
        U 1 1
        U 2 1
        O 1 1
        A 1 2";
    let mut both = Both::loaded(text, 1);
    both.open(64, 1, 1, 0);
    both.take(64, 1, 0);
    both.take(64, 2, 0);
    both.take(64, 3, 27);
    both.take(64, 4, 27);
    both.take(64, 5, 25);
    both.open(63, 2, 1, 0);
    both.take(63, 1, 27);
}

/// "Taking makes its checks first even then; 27 and 28 are for taking only."
#[test]
fn held_already_and_not_held() {
    let mut both = Both::loaded(&example(), 2);
    both.open(5, 1, 1, 0);
    both.drop_role(5, 1, 0);
    both.take(5, 1, 0);
    both.take(5, 1, 0);
    both.read(5, 1, (0, 1), 0);
    both.drop_role(5, 1, 0);
    both.read(5, 1, (0, 1), 29);
    both.drop_role(5, 1, 0);
    // Dropping a role that isn't assigned, only out of range.
    both.load(&example().replace("A 1 2", "A 1 1"), [0, 0, 0]);
    both.open(5, 1, 1, 0);
    both.take(5, 2, 27);
    both.drop_role(5, 2, 0);
    both.drop_role(5, 3, 25);
}

/// Dropping one of two roles that give a read leaves the other.
#[test]
fn two_roles_give_one_read() {
    let mut both = Both::loaded(&example(), 2);
    both.open(2, 1, 2, 0);
    both.take(2, 1, 0);
    both.take(2, 2, 0);
    both.drop_role(2, 2, 0);
    both.read(2, 1, (0, 64), 0);
    both.write(2, 2, 0, b"x", 29);
    both.take(2, 2, 0);
    both.drop_role(2, 1, 0);
    both.read(2, 1, (0, 64), 0);
}

/// "Closing empties the place, and it can be opened again."
#[test]
fn closing_and_opening_again() {
    let mut both = Both::loaded(&example(), 2);
    both.close(1, 24);
    both.open(1, 1, 2, 0);
    both.open(1, 1, 2, 23);
    both.take(1, 2, 0);
    both.read(1, 1, (0, 0), 0);
    both.close(1, 0);
    both.close(1, 24);
    both.read(1, 1, (0, 0), 24);
    both.open(1, 1, 1, 0);
    // No roles are left over from the session before.
    both.read(1, 1, (0, 0), 29);
}

/// "Other calls check in order of number, each as far as it applies to that
/// call": every check that fails stands behind the one that answers.
#[test]
fn the_order_of_numbers() {
    let wild = u64::MAX;
    let mut both = Both::loaded(&example().replace("U 1 2", "U 1 1"), 2);
    both.open(0, wild, wild, 22);
    both.open(65, wild, wild, 22);
    both.close(0, 22);
    both.close(65, 22);
    both.take(0, wild, 22);
    both.drop_role(65, wild, 22);
    both.read(wild, wild, (wild, wild), 22);
    both.write(0, wild, wild, b"x", 22);
    both.take(1, wild, 24);
    both.drop_role(1, wild, 24);
    both.read(1, wild, (wild, wild), 24);
    both.write(1, wild, wild, b"x", 24);
    both.open(1, 2, 1, 25);
    both.open(1, 0, 1, 25);
    both.open(1, 1, 0, 25);
    both.open(1, 1, 3, 25);
    both.open(1, 1, 2, 26);
    both.open(1, 1, 1, 0);
    both.open(1, wild, wild, 23);
    both.take(1, 3, 25);
    both.take(1, 0, 25);
    both.drop_role(1, 3, 25);
    both.read(1, 0, (wild, wild), 25);
    both.read(1, 3, (wild, wild), 25);
    both.read(1, 1, (wild, wild), 29);
    both.write(1, 2, wild, b"x", 29);
    both.take(1, 2, 0);
    // The store is now short of a byte: 31 comes after all others.
    both.store.pop();
    both.model_store.pop();
    both.read(1, 3, (0, 65), 25);
    both.read(1, 2, (0, 65), 29);
    both.read(1, 1, (0, 65), 30);
    both.read(1, 1, (0, 64), 31);
    both.write(1, 2, 1, &[b'x'; 64], 30);
    both.write(1, 2, 0, &[], 31);
    both.write(1, 1, 0, &[], 29);
}

/// A load that is refused leaves sessions open, one that is done closes all.
#[test]
fn a_load_closes_all_sessions() {
    let mut both = Both::loaded(&example(), 2);
    for place in 1..=64 {
        both.open(place, 1, 1, 0);
        both.take(place, 2, 0);
    }
    both.load(&example().replace("D 2 1\n", ""), [12, 1, 2]);
    for place in 1..=64 {
        both.read(place, 1, (0, 1), 0);
    }
    both.load(&example(), [0, 0, 0]);
    for place in 1..=64 {
        both.close(place, 24);
        both.open(place, 1, 1, 0);
        both.read(place, 1, (0, 1), 29);
    }
}

/// "only H with counts 1 0 0 0: accepted"
#[test]
fn only_h() {
    let mut both = Both::loaded("H 1 0 0 0", 0);
    both.open(1, 1, 1, 25);
    both.read(1, 1, (0, 0), 24);
    both.flows(1, 1, 25, 0);
    both.circle(0);
    both.load("H 33 0 0 0", [3, 1, 0]);
}

/// "whether the first flows to the second (never to itself), and gives the
/// lowest role on a circle of two or more roles, or 0"
#[test]
fn role_flow() {
    let mut both = Both::loaded(&example(), 2);
    both.flows(1, 2, 0, 0);
    both.flows(2, 1, 0, 0);
    both.flows(2, 2, 0, 0);
    both.flows(0, 1, 25, 0);
    both.flows(1, 3, 25, 0);
    both.circle(0);
    // Role 1 only to itself; 2 to 3, 3 to 4, 4 to 2.
    let ring = "H 1 4 0 4
        O 1 1
        O 2 1
        O 3 1
        O 4 1
        P 1 1 1
        P 1 1 2
        P 2 2 2
        P 2 4 1
        P 3 2 1
        P 3 3 2
        P 4 3 1
        P 4 4 2";
    both.load(ring, [0, 0, 0]);
    both.flows(1, 1, 0, 0);
    both.flows(2, 3, 0, 1);
    both.flows(3, 2, 0, 0);
    both.flows(3, 4, 0, 1);
    both.flows(4, 2, 0, 1);
    both.circle(2);
    // Roles 2 and 3 write card 1, which nobody reads, and so does 4, senior to
    // 3; role 1 writes card 2 alone.
    let shared = "H 1 4 0 2
        S 4 3
        O 1 1
        O 2 1
        P 1 2 2
        P 2 1 2
        P 3 1 2";
    both.load(shared, [0, 0, 0]);
    both.flows(1, 1, 0, 0);
    both.flows(1, 2, 0, 0);
    for (from, to) in [(2, 3), (3, 2), (2, 4), (4, 2), (3, 4), (4, 3)] {
        both.flows(from, to, 0, 1);
    }
    both.flows(2, 2, 0, 0);
    both.circle(2);
}

fn role_of_user(user: u64) -> u64 {
    user.div_ceil(2)
}

fn role_of_card(card: u64) -> u64 {
    card.div_ceil(4)
}

fn label_of_role(role: u64) -> u64 {
    1 + (role - 1) % 32
}

/// "Counts: labels 1 to 32, roles 0 to 128, users 0 to 256, cards 0 to 512",
/// each of them used: role r reads cards 4r - 3 and 4r - 2 and writes cards
/// 4r - 1 and 4r, and users 2r - 1 and 2r are assigned to it.
fn file_of_the_largest_counts() -> String {
    let mut text = String::from("H 32 128 256 512\n");
    for label in 2..=32 {
        text.push_str(&format!("D {label} {}\n", label - 1));
    }
    for user in 1..=256 {
        let label = label_of_role(role_of_user(user));
        text.push_str(&format!("U {user} {label}\n"));
    }
    for card in 1..=512 {
        let label = label_of_role(role_of_card(card));
        text.push_str(&format!("O {card} {label}\n"));
    }
    for card in 1..=512 {
        let mode = 1 + (card - 1) / 2 % 2;
        text.push_str(&format!("P {} {card} {mode}\n", role_of_card(card)));
    }
    for user in 1..=256 {
        text.push_str(&format!("A {user} {}\n", role_of_user(user)));
    }
    text
}

#[test]
fn the_largest_counts() {
    let mut both = Both::loaded(&file_of_the_largest_counts(), 512);
    for user in 1..=256 {
        let role = role_of_user(user);
        let label = label_of_role(role);
        let place = 1 + (user - 1) % 64;
        both.open(place, user, label, 0);
        both.take(place, role % 128 + 1, 27);
        both.take(place, role, 0);
        for card in 1..=512 {
            let (mut read, mut write) = (29, 29);
            if role_of_card(card) == role {
                match card % 4 {
                    1 | 2 => read = 0,
                    _ => write = 0,
                }
            }
            both.read(place, card, (0, 64), read);
            both.write(place, card, 62, &[user as u8, card as u8], write);
        }
        both.close(place, 0);
        if label < 32 {
            both.open(place, user, label + 1, 26);
        }
        if label > 1 {
            // The role reads at its label, and that isn't under this one.
            both.open(place, user, label - 1, 0);
            both.take(place, role, 28);
            both.close(place, 0);
        }
    }
    both.open(1, 257, 1, 25);
    both.open(1, 256, 33, 25);
    both.open(64, 256, 32, 0);
    both.take(64, 129, 25);
    both.read(64, 513, (0, 1), 25);
    both.flows(128, 127, 0, 0);
    both.flows(128, 129, 25, 0);
    both.circle(0);
}
