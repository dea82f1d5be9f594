"""A small made-up repository with mutants: what selftest tries the record on."""

GROUND = """\
//! What all stand on.

/// It may be low.
pub enum Level {
    Low,
    High,
}
"""
SUMS = """\
use Rattle.std.specs.Prelude.{ℕ, ◌+◌}
pub use Rattle.std.specs.List.{least}

-- two numbers together
pub sum : ℕ → ℕ → ℕ
sum a b = a + b
"""
BASE = """\
//! Counts.
ghost use Rattle.std.specs.Prelude.{◌≡◌, ◌≤◌};
ghost use Rattle.ground.specs.declared.Level.TheVariants.{Low};

use ground::Level;

pub mod measures;

/// No more than this.
pub const LIMIT: u8 = 50;

/// What nothing names.
pub const SPARE: u8 = 3;

/// What has a half.
pub trait Half {
    fn half(&self) -> u8
        ensures { result ≤ 127 };
}

/// What only a private field names.
#[derive(Drop)]
pub struct Held {
    held: u8,
}

impl Held {
    /// What has the name of a method that is called.
    pub fn get(&self) -> u8
        ensures { result ≤ 44 }
    {
        self.held
    }
}

/// A count.
#[derive(Drop)]
pub struct Count {
    number: u8,
    more: Held,
}

impl Model for Count {
    ghost Value = { ℕ };

    ghost view = { λ c. c.number };
}

impl Half for Count {
    fn half(&self) -> u8
        ensures { result ≤ 126 }
    {
        self.number / 2
    }
}

impl Count {
    /// The number.
    pub fn get(&self) -> u8
        ensures { result ≡ self.now }
    {
        self.number
    }

    /// Whether it is low.
    pub fn level(&self) -> Level
        ensures { result ≡ Low }
    {
        Level::Low
    }

    /// What nothing calls.
    pub fn spare(&self) -> u8
        ensures { result ≤ 9 }
    {
        9
    }
}

/// What nothing names.
#[derive(Drop)]
pub struct Unnamed {
    unseen: u8,
}

impl Half for Unnamed {
    fn half(&self) -> u8
        ensures { result ≤ 5 }
    {
        5
    }
}

/// What only an edit calls.
pub fn planted(n: u8) -> u8
    ensures { result ≤ 66 }
{
    n
}

/// What nothing calls.
pub fn uncalled(n: u8) -> u8
    ensures { result ≤ 88 }
{
    n
}
"""
MEASURES = """\
//! Measures.

/// What is called by its path.
pub fn measured(n: u8) -> u8
    ensures { result ≤ 77 }
{
    n
}
"""
LOW = """\
//! Numbers.
ghost use Rattle.std.specs.Prelude.{◌≡◌, ◌≤◌};
ghost use Rattle.low.specs.Numbers.{twice};
ghost use Rattle.low.specs.Numbers.{thrice};

use base::LIMIT;
use std::cmp::Ordering;

pub use base::Count;

/// The most.
const MOST: u8 = b'}';

/// A number.
pub struct Number {
    value: u8,
}

/// A number's double.
pub fn double(n: u8) -> u8
    requires { n ≤ 100 }
    requires most { n ≤ MOST }
    ensures { result ≡ twice n }
{
    // a brace: {
    let text = "}";
    hidden(n, 'x') * 2
}

/// A number three times.
pub fn triple(n: u8) -> u8
    requires { n ≤ LIMIT }
    ensures { result ≡ thrice n }
{
    n * 3
}

fn hidden<'a>(n: u8, c: char) -> u8
    ensures same { result ≡ n }
{
    if c == '{' { n } else { n }
}

impl Model for Number {
    ghost Value = { ℕ };

    ghost view = { λ n. n.value };
}
"""
NUMBERS = """\
use Rattle.std.specs.Prelude.{ℕ, ◌+◌}
use Rattle.base.specs.Sums.{sum, least}

-- a number's double
pub twice : ℕ → ℕ
twice n = n + n

module _ (step : ℕ) where
  -- a number three times
  abbrev pub thrice : ℕ → ℕ
  thrice n = sum n (twice (least n n))
"""
HIGH = """\
use base::Half;
use low::{double, triple, Count, Number};

/// Four of it.
#[tactic(auto)]
pub fn four(n: u8) -> u8
    ensures { result ≤ 200 }
{
    double(n) * 2
}

/// Six of it, and more.
pub fn six(n: u8, count: &Count) -> u8 {
    triple(n) * 2 + count.get() + count.half() + base::measures::measured(n)
}

/// How low it is.
pub fn low(count: &Count, number: Number) -> bool {
    matches!(count.level(), ground::Level::Low)
}
"""
FILES = {
    "crates.txt": "# the crates\nground:\nbase: ground\nlow: base ground\nhigh: low base ground bytes\n",
    "crates/ground/src/lib.rt": GROUND,
    "crates/base/src/lib.rt": BASE,
    "crates/base/src/measures.rt": MEASURES,
    "crates/base/specs/Sums.antt": SUMS,
    "crates/ground/mutants/level_is_another.edit": "file: src/lib.rt\nold:     Low,\nnew:     Lower,\n",
    "crates/base/mutants/get_gives_half.edit": "file: src/lib.rt\nold: self.held\nnew: self.held / 2\n",
    "crates/low/src/lib.rt": LOW,
    "crates/low/specs/Numbers.antt": NUMBERS,
    "crates/low/proofs/double/Answers.antt": "returns c = auto\n",
    "crates/low/mutants/double_adds_one.edit": "file: src/lib.rt\nold: hidden(n, 'x') * 2\nnew: hidden(n, 'x') + 1\n",
    "crates/low/mutants/hidden_gives_none.edit": "file: src/lib.rt\nold: if c == '{' { n } else { n }\nnew: 0\n",
    "crates/high/src/lib.rt": HIGH,
    "crates/high/mutants/four_doubles_once.edit": "file: src/lib.rt\nold: double(n) * 2\nnew: double(n) + base::planted(n)\n",
}
