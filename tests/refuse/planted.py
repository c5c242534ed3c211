"""A small repository, edits of it and provers of which the runner of edits has
to say what stands beside each.

The repository has a crate of functions, one of a trait, two of definitions,
and three whose modules are spoilt.
"""
SOURCE = "src/lib.rt"
FILES = {
    "crates.txt": "one:\ntraits:\nlaws:\nwrong:\nbare:\ncut:\nother:\n",
    "one/src/lib.rt": """\
// Two numbers, of which the second is got from the first, and one of a limit.
#![tactic(auto)]

ghost use Rattle.std.specs.Prelude.{◌≡◌, min};

pub fn seven() -> u32
    ensures { result ≡ 7 }
{
    let n = 7;
    n
}

pub fn again() -> u32
    ensures { result ≡ 7 }
{
    seven()
}

pub fn most_five(a: u32) -> u32
    ensures { result ≡ min a 5 }
{
    if a > 5 { 5 } else { a }
}
""",
    "one/proofs/seven/Answers.antt": """\
-- `one::seven` meets its contract. Assumes nothing.
use Rattle.std.proofs.Common.{refl}
use Rattle.one.proofs.seven.Goals as goal

pub returns : goal.returns
returns c = refl
""",
    "one/proofs/most_five/Answers.antt": """\
-- `one::most_five` meets its contract. Assumes nothing.
use Rattle.std.proofs.Common.{arith}
use Rattle.one.proofs.most_five.Goals as goal

pub returns-then-a-gt5 : goal.returns-then-a-gt5
returns-then-a-gt5 c = omega (arith, c.if-a-gt5.true)
""",
    "bare/src/lib.rt": "pub fn one() -> u32 {\n    1\n}\n",
    "cut/src/lib.rt": "pub fn three() -> u32 {\n    3\n}\n",
    "other/src/lib.rt": "pub fn two() -> u32 {\n    2\n}\n",
}
# So long that the prover breaks what it says of them over lines.
TRAIT, TYPE = "LimitedInOneOfSeveralWays", "NumberUpToSomeLimit"
SIX = "at_most_six_of_what_is_given"
FOLDER = f"{TYPE}{TRAIT}1/{SIX}"
FILES["traits/src/lib.rt"] = f"""\
// A trait with a function of its own, and what it asks for of a type.
#![tactic(auto)]

ghost use Rattle.std.specs.Prelude.{{◌≡◌, min}};

pub trait {TRAIT}<const WAY: u64> {{
    fn {SIX}(a: u32) -> u32
        ensures {{ result ≡ min a 6 }};

    fn twelve() -> u32
        ensures {{ result ≡ 12 }}
    {{
        let six = Self::{SIX}(9);
        six + six
    }}
}}

pub struct {TYPE}<const TOP: u64> {{
    pub number: u64,
}}

impl<const TOP: u64> {TRAIT}<1> for {TYPE}<TOP> {{
    fn {SIX}(a: u32) -> u32 {{
        if a > 6 {{ 6 }} else {{ a }}
    }}
}}
"""
FILES[f"traits/proofs/{FOLDER}/Answers.antt"] = f"""\
-- A number up to a limit is limited in one way. Assumes nothing.
use Rattle.std.proofs.Common.{{arith}}
use Rattle.traits.proofs.{FOLDER.replace("/", ".")}.Goals as goal

pub returns-then-a-gt6 : goal.returns-then-a-gt6
returns-then-a-gt6 g c = omega (arith, c.if-a-gt6.true)
"""
FILES[f"traits/proofs/{TRAIT}/twelve/Answers.antt"] = f"""\
-- The trait's own function meets its contract. Assumes nothing.
use Rattle.std.proofs.Common.{{ap, ◌+◌, ℕ}}
use Rattle.traits.proofs.{TRAIT}.twelve.Goals as goal

pub returns : goal.returns
returns g c = ap (λ (n : ℕ). n + n) c.{SIX}-six.ensures
"""
NUMBER = """\
-- A number.
use Rattle.std.specs.Prelude.{{ℕ, ◌+◌}}

abbrev pub {1} : ℕ
{1} = {2}
"""
LAW = """\
-- What the number is.
use Rattle.std.proofs.Common.{{◌≡◌, refl}}
use Rattle.{3}.specs.{0}.{{{1}}}

pub {1}-is : {1} ≡ {2}
{1}-is = refl
"""
# What rests on both numbers, on the first through another name.
SUM = """\
-- Their sum.
use Rattle.std.proofs.Common.{{ℕ, ◌≡◌, ◌+◌, refl}}
use Rattle.{0}.specs.Low.{{low}}
use Rattle.{0}.specs.High.{{high}}

abbrev pub first : ℕ
first = low

pub sum-is : first + high ≡ 7
sum-is = refl
"""
MODULES = "-- Both.\npub mod Low\npub mod High\n"
for crate in ("laws", "wrong"):
    FILES[f"{crate}/src/lib.rt"] = "// No code.\n"
    FILES[f"{crate}/specs/Lib.antt"] = MODULES
    FILES[f"{crate}/proofs/Lib.antt"] = MODULES + "pub mod Sum\n"
    FILES[f"{crate}/proofs/Sum.antt"] = SUM.format(crate)
    for row in (("Low", "low", 3, crate), ("High", "high", 4, crate)):
        FILES[f"{crate}/specs/{row[0]}.antt"] = NUMBER.format(*row)
        FILES[f"{crate}/proofs/{row[0]}.antt"] = LAW.format(*row)

LOW, HIGH = "specs/Low.antt", "specs/High.antt"
LOW_LAW, HIGH_LAW = "proofs/Low.antt low-is", "proofs/High.antt high-is"
SUM_LAW = "proofs/Sum.antt sum-is"
ACCEPTED, UNREACHED = "NOT REFUSED", "did not reach the prover"
# Edits: at, file, old, new; and the fault that is to be said of each. Of those
# of functions some are tried together, and not two of one function; so are the
# first two of definitions, and not the third, which is said to be refused by a
# law that the first breaks. The proofs of `most_five` and of what a trait asks
# for say a test by a name that an edit of the test changes; `again` has no
# proof file.
EDITS = {
    "one/eight": ("", SOURCE, "= 7;", "= 8;", ""),
    "one/beside_a_refused_one": ("", SOURCE, "    seven()", "    (seven())",
                                 ACCEPTED),
    "one/of_the_same_function": ("", SOURCE, "    n", "    (n)", ACCEPTED),
    "one/of_no_proof_file": ("", SOURCE, "    seven()", "    seven() + 1", ""),
    "one/of_a_named_function": (f"{SOURCE} again", SOURCE, "    seven()", "    6",
                                ""),
    "one/of_another_function": (f"{SOURCE} seven", SOURCE, "    seven()", "    5",
                                f"not at {SOURCE} seven first"),
    "one/twice_by_its_first_pair": (
        "", SOURCE, "    n", "    let n = 7;\nold: let n = 7;\nnew: let n = 8;",
        "2 times after the pairs before it"),
    "one/test_renamed": ("", SOURCE, "a > 5", "a >= 5", ACCEPTED),
    "one/test_renamed_and_wrong": ("", SOURCE, "a > 5", "a > 6", ""),
    "one/not_compiled": (SOURCE, SOURCE, "    n", "    m", UNREACHED),
    "one/not_read": ("", SOURCE, "min a 5", "mni a 5", "no 'at:' line"),
    "one/not_read_there": (f"{SOURCE} most_five", SOURCE, "min a 5", "mni a 5",
                           "cannot be read"),
    "one/not_said_where": ("", SOURCE, "Two", "Three", "no 'at:' line"),
    "traits/seven_for_six": ("", SOURCE, "{ 6 }", "{ 7 }", ""),
    "traits/six_in_brackets": ("", SOURCE, "{ 6 }", "{ (6) }", ACCEPTED),
    "traits/of_a_named_function": (f"{SOURCE} {TYPE}::{SIX}", SOURCE, "{ a }",
                                   "{ 6 }", ""),
    "traits/test_renamed": ("", SOURCE, "a > 6", "a >= 6", ACCEPTED),
    "traits/test_renamed_and_wrong": ("", SOURCE, "a > 6", "a > 7", ""),
    "traits/of_its_own_function": ("", SOURCE, "six + six", "six + 7", ""),
    "traits/its_own_in_brackets": ("", SOURCE, "six + six", "(six + six)",
                                   ACCEPTED),
    "laws/low_4": (LOW_LAW, LOW, "low = 3", "low = 4", ""),
    "laws/high_as_a_sum": (HIGH_LAW, HIGH, "= 4", "= 2 + 2", ACCEPTED),
    "laws/sum_of_another_low": (SUM_LAW, HIGH, "= 4", "= 3 + 1", ACCEPTED),
    "wrong/comment": (LOW_LAW, LOW, "A number", "One number", ACCEPTED),
    "wrong/elsewhere": (HIGH_LAW, LOW, "low = 3", "low = 5",
                       f"not at {HIGH_LAW} first"),
    "wrong/later": (SUM_LAW, LOW, "low = 3", "low = 6",
                    f"not at {SUM_LAW} first"),
    "wrong/no_definition": (LOW, LOW, "low = 3", "low = 3 4",
                           "is itself no definition"),
    "wrong/changes_nothing": (LOW_LAW, LOW, "= 3", "= 3", "changes nothing"),
    "wrong/of_a_proof": (LOW_LAW, "proofs/Low.antt", "refl", "ref",
                        "changes a proof"),
    "wrong/not_there": (LOW_LAW, LOW, "twelve", "9", "0 times"),
    "wrong/twice_there": (LOW_LAW, LOW, "low", "high", "2 times"),
    "wrong/out_of_the_crate": (SOURCE, "src/../../one/src/lib.rt", "7", "8",
                              "no file of src/ or specs/"),
    "bare/two": ("", SOURCE, "1", "2", "bare is not proved from its modules"),
    "cut/four": ("", SOURCE, "    3", "    4",
                 "cut is not proved from its modules"),
    "other/three": ("", SOURCE, "2", "3",
                    "other is not proved from its modules"),
}

# One that rt tries, which shows so little of what the prover says of a name.
LEFT_TO_RT = {
    "traits/left_to_rt": ("", SOURCE, "a > 6", "a >= 6", "file does not fit"),
}

# A prover that says of every crate as it stands that it is proved, and of an
# edited one what it is given to say.
PROVER = """\
#!/bin/sh
if grep -q -e '= 8;' -e Three src/lib.rt; then
    {}
fi
echo 'crate one: modules loaded=1 checked=0'
echo 'logic=proved functions=2'
"""
ERROR = ("echo './proofs/{}/Answers.antt:1:1: error: {}'; "
         "echo logic=not-proved; exit 1")
WRONG = ERROR.format("seven", "wrong")
EIGHT = EDITS["one/eight"][:-1]
COMMENT = ("proofs/seven", SOURCE, "Two", "Three")
# An edit, what such a prover says of it, and what is to be said of that.
PROVERS = {
    "accepts all": (EIGHT, ":", ACCEPTED),
    "has no verdict": (EIGHT, "exit 1", UNREACHED),
    "ends with another status": (EIGHT, "echo logic=not-proved; exit 3",
                                 UNREACHED),
    "names another function": (EIGHT, ERROR.format("again", "wrong"),
                               "not at proofs/seven first"),
    "cannot name a need": (
        EIGHT, ERROR.format("seven", "has no `x` that can be named from here"),
        "proof file does not fit"),
    "breaks what it says of a name": (
        EIGHT, ERROR.format("seven", "`returns`: record `R` (nearest: .x)\n"
                            "  has no field `y`"),
        "proof file does not fit"),
    "only waits": (EIGHT, ERROR.format("seven", "it was not admitted"),
                   "not at proofs/seven first"),
    "waits for what is rejected": (
        EIGHT, ERROR.format("seven", "1 declaration that depends on `law`, "
                            "which was rejected, was not checked: returns"),
        "not at proofs/seven first"),
    "refuses elsewhere than rt": (EIGHT, WRONG, "rt must-fail refuses it first"),
    "refuses what rt accepts": (COMMENT, WRONG,
                                "by rt must-fail NOT REFUSED"),
}
