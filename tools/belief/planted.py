"""Small trees, each with what the script once missed or could not follow. It has to find it."""
import re
import shutil
import subprocess
import sys
import tempfile
from pathlib import Path
from typing import NamedTuple

from files import TOP, fail


class Plant(NamedTuple):
    """A tree of a crate `low`: what is planted, its src/lib.rt, other files, and what is asked; the
    definitions that are listed then, those that are not, or what is refused."""
    name: str
    lib: str
    files: dict = {}
    asked: str = "low::call"
    found: str = ""
    absent: str = ""
    refused: str = ""


# Every tree has these definitions. Binders have the name of the last one too.
DEFS = """use Rattle.std.specs.Prelude.{ℕ, ◌≡◌}

abbrev pub IsFirst : ℕ → Type 0
IsFirst x = x ≡ 1

abbrev pub IsSecond : ℕ → Type 0
IsSecond x = x ≡ 2

abbrev pub limit : ℕ
limit = 3
"""

# what files begin with
LIB = """ghost use Rattle.std.specs.Prelude.{ℕ, ◌≡◌};
ghost use Rattle.low.specs.Defs.{IsFirst, IsSecond, limit};
"""
SPEC = """use Rattle.std.specs.Prelude.{ℕ, ◌≡◌}
use Rattle.low.specs.Defs.{limit}
"""

# a call that promises what specs/Own.antt defines
OWN = """ghost use Rattle.low.specs.Own.{IsOwn};

pub fn call() -> u64
    ensures { IsOwn result }
{
    0
}
"""


def in_specs(name, text, **wanted):
    """A plant in a definition of specs/."""
    return Plant(name, OWN, {"specs/Own.antt": text}, **wanted)


PLANTS = [
    # ---- what a call requires and promises
    Plant("what a call requires, asked for one clause of it", """
pub fn call(n: u64) -> u64
    requires { IsFirst n }
    ensures done { IsSecond result }
    ensures more { result ≡ limit }
{
    n
}
""", asked="low::call.done", found="IsFirst IsSecond", absent="limit"),
    Plant("what a call requires, read in part", """
ghost use Rattle.low.specs.Own.{IsOwn};

pub fn call(n: u64) -> u64
    requires { IsOwn n }
    ensures { IsSecond result }
{
    n
}
""", {"specs/Own.antt": """use Rattle.std.specs.Prelude.{ℕ, ◌≡◌}

pub record IsOwn (x : ℕ) : Type 0 where
  pub front : x ≡ 0
  pub back : x ≡ x
"""}, asked="low::call IsOwn=front", refused="IsOwn is a premise"),
    Plant("two clauses without a name", """
pub fn call(n: u64) -> u64
    requires { IsFirst n }
    ensures { IsSecond result }
{
    n
}
""", found="IsFirst IsSecond"),
    Plant("two clauses of one name", """
pub fn call(n: u64) -> u64
    requires own { IsFirst n }
    ensures own { IsSecond result }
{
    n
}
""", found="IsFirst IsSecond"),
    Plant("the types of parameters", """
pub struct Config {
    pub width: Width,
}

pub enum Width {
    Four,
}

pub fn call(c: &Config, n: u64) -> u64
    ensures { c.now ≡ c.now }
{
    n
}
""", found="Config Width"),
    # ---- names that binders have
    in_specs("a binder in a field that is set", SPEC + """
pub record Pair : Type 0 where
  pub front : ℕ → ℕ
  pub back : ℕ

abbrev pub pair : Pair
pair = record { front = λ limit. limit; back = limit }

abbrev pub IsOwn : ℕ → Type 0
IsOwn x = x ≡ pair.back
""", found="limit"),
    in_specs("a binder before a comma", SPEC + """
abbrev pub both : (ℕ → ℕ) × ℕ
both = (λ limit. limit, limit)

abbrev pub IsOwn : ℕ → Type 0
IsOwn x = x ≡ both.1
""", found="limit"),
    in_specs("a binder in what a `let` names", SPEC + """
abbrev pub IsOwn : ℕ → Type 0
IsOwn x = let f = λ limit. limit in x ≡ f limit
""", found="limit"),
    in_specs("a binder in the type of another", SPEC + """
abbrev pub IsOwn : ℕ → Type 0
IsOwn x = (λ (f : (limit : ℕ) → ℕ). f limit ≡ x) (λ y. y)
""", found="limit"),
    in_specs("a binder in another constructor", SPEC + """
pub data Shape : ℕ → Type 0 where
  dot : (limit : ℕ) → Shape limit
  line : (x : ℕ) → x ≡ limit → Shape x

abbrev pub IsOwn : ℕ → Type 0
IsOwn x = Shape x
""", found="limit"),
    in_specs("a field whose type names a definition as the field is named", SPEC + """
pub record IsOwn (x : ℕ) : Type 0 where
  pub limit : x ≡ limit
""", found="limit"),
    in_specs("a field with the name of a definition, in a field above it", SPEC + """
pub record IsOwn (x : ℕ) : Type 0 where
  pub low : x ≡ limit
  pub limit : x ≡ x
""", found="limit"),
    in_specs("a name that is bound where it is used", SPEC + """
abbrev pub IsOwn : ℕ → Type 0
IsOwn x = (limit : ℕ) → limit ≡ x
""", found="IsOwn", absent="limit"),
    Plant("a binder in another ghost member", """
pub trait Store {
    ghost use Rattle.std.specs.Prelude.{ℕ, ◌≡◌};
    ghost use Rattle.low.specs.Defs.{limit};

    ghost shows: { Self → ℕ };

    ghost same: { (limit : Self) → shows limit ≡ shows limit };

    ghost most: { (m : Self) → shows m ≡ limit };
}

pub fn call<S: Store>(s: S) -> u64
    ensures { result ≡ S.shows s }
{
    0
}
""", found="Store limit"),
    # ---- names of src/
    Plant("a macro that writes a value", """
macro_rules! most {
    () => { FEW };
}

const FEW: u64 = 3;

pub const MOST: u64 = most!();

pub fn call() -> u64
    ensures { result ≡ MOST }
{
    MOST
}
""", found="MOST most FEW"),
    Plant("a macro that writes a type", """
macro_rules! width {
    () => { Width };
}

pub enum Width {
    Four,
}

pub struct Config {
    pub width: width!(),
}

pub fn call() -> Config
    ensures { result ≡ result }
{
    Config { width: Width::Four }
}
""", found="Config width Width"),
    Plant("a value that a function computes", """
const fn most() -> u64 {
    3
}

pub const MOST: u64 = most();

pub fn call() -> u64
    ensures { result ≡ MOST }
{
    MOST
}
""", refused="the value of MOST calls most"),
    Plant("a supertrait", """
pub trait Memory {
    ghost use Rattle.low.specs.Defs.{IsFirst};
    ghost use Rattle.std.specs.Prelude.{ℕ};

    ghost words: { Self → ℕ };

    fn look(&self) -> u64
        ensures { IsFirst result };
}

pub trait Store: Memory<Word = u64> + Drop {
    ghost use Rattle.std.specs.Prelude.{ℕ};

    ghost shows: { Self → ℕ };
}

pub fn call<S: Store>(s: S) -> u64
    ensures { result ≡ S.shows s }
{
    0
}
""", found="Store Memory IsFirst"),
    Plant("a member of a supertrait", """
pub trait Memory {
    ghost use Rattle.std.specs.Prelude.{ℕ};

    ghost words: { Self → ℕ };
}

pub trait Store: Memory {}

pub fn call<S: Store>(s: S) -> u64
    ensures { result ≡ S.words s }
{
    0
}
""", found="Store Memory"),
    Plant("a bound that no clause names", """
pub trait Store {
    ghost use Rattle.low.specs.Defs.{IsFirst};

    fn look(&self) -> u64
        ensures { IsFirst result };
}

pub fn call<S>(s: S) -> u64
where
    S: Store,
    ensures { IsSecond result }
{
    2
}
""", found="Store IsFirst IsSecond"),
    Plant("a type named as one of std's", """
pub enum Ordering {
    First,
}

pub enum Option {
    Nothing,
}

pub struct Exit {
    pub order: Ordering,
    pub way: Option,
}

pub fn call() -> Exit
    ensures { result ≡ result }
{
    Exit { order: Ordering::First, way: Option::Nothing }
}
""", found="Exit Ordering Option"),
    Plant("a type named as one of std's, in another file", """
mod order;

use order::{Ordering as Order, Result};

pub struct Exit {
    pub order: Order,
    pub way: Result,
}

pub fn call() -> Exit
    ensures { result ≡ result }
{
    Exit { order: Order::First, way: Result::Nothing }
}
""", {"src/order.rt": """pub enum Ordering {
    First,
}

pub enum Result {
    Nothing,
}
"""}, found="Exit Ordering Result"),
    # ---- methods, models and ghost fields
    Plant("a method of a type with a parameter", """
pub trait Store {
    ghost use Rattle.std.specs.Prelude.{ℕ};

    ghost shows: { Self → ℕ };
}

pub struct Words {
    cells: u64,
}

impl Store for Words {
    ghost use Rattle.low.specs.Defs.{limit};

    ghost shows = { λ w.
        limit };
}

pub struct Heap<M: Store = Words> {
    memory: M,
    pub count: u64,
}

impl<M: Store> Heap<M> {
    pub fn request(&mut self) -> u64
        requires { IsFirst self.old.count }
        ensures { IsSecond self.new.count }
    {
        0
    }
}
""", asked="low::Heap::request", found="Heap Store Words limit IsFirst IsSecond"),
    Plant("a model and what it is seen as", """
pub struct Heap {
    count: u64,
}

impl Model for Heap {
    ghost use Rattle.low.specs.Own.{HeapState};

    ghost Value = { HeapState };

    ghost view = { λ h. record { count = h.count } };
}

impl Heap {
    pub fn call(&self) -> u64
        ensures { result ≡ self.now.count }
    {
        self.count
    }
}
""", {"specs/Own.antt": """use Rattle.std.specs.Prelude.{ℕ}

pub record HeapState : Type 0 where
  pub count : ℕ
"""}, found="Heap HeapState"),
    Plant("ghost fields, and what a type owns", """
ghost use Rattle.low.specs.Own.{Held, held_coded, owns, IsKept};

pub struct Link {
    at: u64,
    pub ghost heap: { Held } by { held_coded },
}

impl Model for Link {
    ghost also_owns = { λ l. owns l.at l.heap };
}

#[repr(C)]
pub struct Handle {
    mark: u64,
    link: Link,
    ghost told: { mark ≡ limit },
}

#[unsafe(no_mangle)]
pub extern "C" fn low_raw_call(handle: &mut Handle) -> u32
    ensures { IsKept handle.old.link.heap handle.new.link.heap }
{
    0
}
""", {"specs/Own.antt": SPEC + """
pub record Held : Type 0 where
  pub count : ℕ

abbrev pub held_coded : ℕ
held_coded = 0

abbrev pub owns : ℕ → Held → Type 0
owns at h = h.count ≡ at

abbrev pub IsKept : Held → Held → Type 0
IsKept old new = old ≡ new
"""}, asked="low::exports", found="Handle Link Held held_coded owns IsKept limit"),
    # ---- names of proofs/
    in_specs("a name of proofs/ in a definition that is listed", """
use Rattle.std.specs.Prelude.{ℕ, ◌≡◌}
use Rattle.low.proofs.Steps.{step_fits}

abbrev pub IsOwn : ℕ → Type 0
IsOwn x = x ≡ step_fits x
""", refused="IsOwn names step_fits, which is of proofs/"),
    in_specs("a name of proofs/ in another definition", """
use Rattle.std.specs.Prelude.{ℕ, ◌≡◌}
use Rattle.low.proofs.Steps.{step_fits}

pub stepped : (x : ℕ) → x ≡ x
stepped x = step_fits x

abbrev pub IsOwn : ℕ → Type 0
IsOwn x = x ≡ 0
""", found="IsOwn", absent="stepped"),
    # ---- what can't be followed
    in_specs("a name that nothing defines", SPEC + """
abbrev pub IsOwn : ℕ → Type 0
IsOwn x = x ≡ most
""", refused="most"),
    in_specs("a field that no listed definition has", SPEC + """
abbrev pub IsOwn : ℕ → Type 0
IsOwn x = x.count ≡ limit
""", refused="count"),
]


def test_planted():
    """That each plant is found."""
    with tempfile.TemporaryDirectory() as folder:
        top = Path(folder)
        (top / "docs").mkdir()
        (top / "tools").mkdir()
        shutil.copy(TOP / "tools" / "believed", top / "tools")
        shutil.copytree(TOP / "tools" / "belief", top / "tools" / "belief")
        (top / "crates.txt").write_text("low:\n")
        for plant in PLANTS:
            write_tree(top / "crates" / "low", plant)
            look_for(top, plant)


def write_tree(crate, plant):
    shutil.rmtree(crate, ignore_errors=True)
    files = {"src/lib.rt": LIB + plant.lib, "specs/Defs.antt": DEFS, **plant.files}
    for name, text in files.items():
        (crate / name).parent.mkdir(parents=True, exist_ok=True)
        (crate / name).write_text(text)


def look_for(top, plant):
    """Fails where the script does not list or refuse what it should."""
    ran = subprocess.run([sys.executable, top / "tools" / "believed", *plant.asked.split()],
                         capture_output=True, text=True, check=False)
    listed = set(re.findall(r"^ *\d+ +\d+  \S+  `([\w -]+)`", ran.stdout, re.M))
    missed = set(plant.found.split()) - listed
    if bool(ran.returncode) != bool(plant.refused) or plant.refused not in ran.stderr:
        fail(f"planted, {plant.name}: {ran.stderr.strip() or 'not refused'}")
    if missed or listed & set(plant.absent.split()):
        fail(f"planted, {plant.name}: listed are {' '.join(sorted(listed))}")
