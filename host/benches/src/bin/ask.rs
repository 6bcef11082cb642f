//! Asks one kind of question many times, for a tool that counts instructions.

use benches::{Asking, Letters, POSITIONS};
use clap::{Parser, ValueEnum};
use pulindraxi::boundary::{self, Slot};
use trials::{Kind, Lent};

/// Asks one kind of question many times.
#[derive(Parser)]
struct Options {
    /// The question
    kind: Which,
    /// The segment count
    segments: usize,
    /// 1 or -1
    #[arg(allow_hyphen_values = true)]
    strand: i32,
    /// How many questions, spread over the positions
    count: usize,
}

#[derive(Clone, Copy, ValueEnum)]
enum Which {
    Build,
    IsCoding,
    GToN,
    GToC,
    CToG,
    Worklist,
}

/// Asks so many positions in one worklist.
fn list(asking: &Asking, count: usize) {
    let mut slots: Vec<_> = (0..count).map(|index| Slot::new(asking.g[index * POSITIONS / count])).collect();
    slots.sort_unstable_by_key(|slot| slot.position);
    assert_eq!(boundary::worklist(asking.lent.reading(), &mut slots).number, 0);
}

fn main() {
    let Options { kind, segments, strand, count } = Options::parse();
    let asking = Asking::new(Letters::Matches, segments, strand);
    let bytes = asking.case.lay();
    for index in (0..count).map(|index| index * POSITIONS / count) {
        let question = match kind {
            // The transcript was built once already.
            Which::Build if index == 0 => continue,
            Which::Build => {
                assert_eq!(Lent::filled(0).build(asking.case.laid(&bytes)), 0);
                continue;
            }
            Which::IsCoding => asking.about_g(Kind::IsCoding, index),
            Which::GToN => asking.about_g(Kind::GToN, index),
            Which::GToC => asking.about_g(Kind::GToC, index),
            Which::CToG => asking.about_c(Kind::CToG, index),
            // All at once.
            Which::Worklist => {
                list(&asking, count);
                break;
            }
        };
        assert_eq!(question.ask(&asking.lent).number, 0);
    }
}
