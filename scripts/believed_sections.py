"""What docs/BELIEVE.md says beside the definitions themselves, for scripts/believed.

A file of definitions goes by its crate and its name: run_model/Run is crates/run_model/specs/Run.antt.
"""

# How the page begins. What has a $ is counted.
BEFORE = """\
What is proved says that the programs do as the definitions say. That the definitions say what a modeller means, nobody can \
prove: people have to judge it, and this page leads them through. The contracts of `cdpp` and `drawlog` cite \
`answer_model/specs/Programs.antt`. What that reaches stands in $files files of `crates/*/specs`: $definitions definitions of \
$lines lines, without comments, blanks and imports.

## How to read

- **Begin with section 1**, the meaning of a run; at its heart are its last files, `CellStep.antt`, `Cycle.antt`, `Run.antt`. \
Section 2 is what the programs make of it, and stands on sections 3 to 6 for texts, atomic models, files and saved states. \
Section 7 counts for the mark of `-T` alone. The seven sections have $sizes lines. In each the files stand in the order in which one leads to the next.
- **Definitions compute.** Each is a function of plain values (numbers, lists, texts as lists of bytes), a type, or, in section \
2, a statement. It changes nothing and doesn't know how the code goes about it. The comment above it says in words what it \
means: hold one against the other.
- **They are tried.** Beside them stand files of examples, as `run_model/specs/Examples.antt` and \
`rule_tree/specs/CallExamples.antt`: equations that the checker works out by the definitions.
- **Some may be skipped**, since a law says the same in a way that is easier to judge. The last column names what, and the law. \
A law is the contract of a public function that computes nothing, in `src/laws.rt` of the crate that is named, or in a file \
beside it; its statement is the definition that the contract names.
- **Lines** are those of definitions that are reached. A file may have others, on which laws and lower clauses stand. Where \
fewer than half of its definitions are reached, these are named.

Beside these definitions stand those of the kit's library, with the command line of `clap`. What else is trusted (checker, \
compiler, system) stands in `README.md`, and what is only tested in `docs/PROVED.md`. The clauses `nothing`, `faults`, `leaves` \
and `visits` of the calls say more than `ends` and `causes`, and cite a few files more, which `docs/PROVED.md` names. \
`docs/MAP.md` leads from each rule to its definition, its code and the clause that joins the two.

## The notation

Four of the shortest, as they stand:
"""

# Definitions that are quoted in full.
QUOTED = [
    ("rule_tree/Sight", "outs"),
    ("answer_model/Answer", "with_file"),
    ("run_model/Run", "next_cycle"),
    ("answer_model/Headline", "Begins"),
]

# Signs, and what they are in Rust's words.
SIGNS = [
    ("`f : A → B → C`, `f a b`", "a function of an `A` and a `B` that gives a `C`, and its call"),
    ("`λ x. e`", "the closure `\\|x\\| e`"),
    ("`elim e [ p ↦ a \\| q ↦ b ]`", "`match e { p => a, q => b }`; equations `f p = a` below one another do so on arguments"),
    ("`abbrev`, `unfoldable`", "a definition: proofs see through an `abbrev` always, through an `unfoldable` where they ask to"),
    ("`[]`, `x ∷ xs`, `xs ++ ys`", "the empty list, a list with its first item, one list behind the other"),
    ("`a ≡ b`, `a ≢ b`", "the statement that they are equal, or are not; `a == b`, `nat_lt a b` and `nat_le a b` are tests"),
    ("`A × B`, `¬ A`, `⊤`, `⊥`", "of statements: and, not, always, never. Of values `A × B` is a pair, whose parts are `.0` and `.1`"),
    ("`(x : A) → P`, `(x : A) × P`", "for each `x`, and for some `x`"),
    ("`Type 0`", "what a type or a statement is of; `{A : Type 0}` is a parameter `<A>`"),
    ("`ℕ`, `ℤ`", "whole numbers of any size: `suc n` is n + 1, `pos n` is n, `negsuc n` is -(n + 1); on `ℕ` `-` stops at 0"),
    ("`record`, `data`", "a struct, an enum. `record { x = e }` makes one, `record r { x = e }` is `r` with another `x`"),
    ("`mutual`, `where`", "definitions that call one another, and definitions for the one above alone"),
    ("`codes \"end \"`", "the bytes of a text"),
    ("`for_some o f`, `slice_get xs k`", "`o.and_then(f)`, `xs.get(k)`. Names from `Rattle.std` are the kit's, most as in Rust"),
    ("`use Rattle.quantity.specs.declared.value.Value`", "the type `Value` of the code, in `src/value.rt` of `quantity`"),
    (
        "`use Rattle.rule_syntax.specs.RuleOf`",
        "where a crate has no such file, its `specs/Lib.antt` hands on that of another, here `rule_words`",
    ),
]

# A section: its title, what it says, and its files in the order in which they are read.
SECTIONS = [
    (
        "What a run is",
        "A model is a tree of components whose leaves are cells and atomic models. A cell's rules, over what it sees of its "
        "neighbours, give values and a delay. In a cycle every leaf is asked for its outputs, links bring them, and every leaf is "
        "asked to move. A run is one cycle after another, each at the next time at which something is due.",
        """
        model_tree/Tree cell_grid/Space cell_grid/Region cell_grid/Zones
        quantity/Arithmetic quantity/Truth rule_tree/Expression rule_tree/Sight rule_tree/Functions rule_tree/Meaning
        rule_tree/Chosen
        quantity/Delay atomic_face/Bags run_model/CellStep model_tree/Pull run_model/Cycle run_model/Run
        """,
    ),
    (
        "What the programs answer",
        "Words and files have one answer: the files that are made, both streams, the status and the files looked for. What a "
        "call does outside is that answer, or, where something fails, a beginning of it.",
        """
        answer_model/Options answer_model/Asked answer_model/Answer answer_model/Started answer_model/Cdpp
        answer_model/RunFiles answer_model/RunEnd answer_model/Refusals answer_model/AskedDrawing answer_model/Drawlog
        room_edge/Outside room_edge/Faults answer_model/Status answer_model/Headline answer_model/Outcome
        answer_model/Programs
        """,
    ),
    (
        "Texts",
        "How values, times and names are written, and with them the lines of logs and outputs and the frames.",
        """
        quantity/Bytes quantity/ByteNames quantity/Digits quantity/Names quantity/Written quantity/Times quantity/ValueTexts
        text_forms/Letters model_leaves/LeafTexts text_forms/LogLine text_forms/Lines text_forms/Frames
        """,
    ),
    (
        "Boxes, the atomic models",
        "A box is an atomic model of a class: each class says how its boxes start, when they are due, what they give and how they "
        "move. Whoever has models of cells alone may skip them. What a class says of `is_state` counts for saved states alone.",
        """
        atomic_face/ClassRules atomic_face/Held atomic_face/Classes atomic_face/Moves atomic_face/ClassNames atomic_face/Settings
        atomic_face/Words atomic_face/Parameters
        atomic_face/Queue atomic_face/Generator atomic_face/Cpu atomic_face/Counter
        atomic_face/TableSettings atomic_face/StateTable atomic_face/ClassTable
        """,
    ),
    (
        "How models and events are read",
        "Which files are models, which tree such a file is, and by which line and kind any other is refused: sections and keys, "
        "spaces, rules, links, then the model. It ends with the model that `-G` makes, and files of events.",
        """
        source_text/Lines source_text/Tuples ma_lines/Entries ma_lines/Sections
        model_text/Refusals model_text/Keyed model_text/Walk quantity/Literals model_text/Forms model_text/Keys
        cell_grid/Places cell_grid/ZoneTexts cell_grid/Initial model_text/Spaces model_text/Stock
        rule_words/Tokens rule_tree/Phrases rule_words/Reading rule_tree/Scope rule_tree/Sound
        rule_words/RuleOf model_text/Rules
        model_tree/Faces model_text/Links model_text/InitialFiles model_text/Trees model_text/Drawings model_tree/Paths
        model_text/ModelOf model_text/LifeModel event_list/Events
        """,
    ),
    (
        "Saved states",
        "What `-S` writes and `-R` reads: the text of a state, which texts are one, and by which line any other is refused. That "
        "a run which is saved and gone on with is one run need not be believed: it is proved (`saved_runs`).",
        """
        atomic_face/BoxStates text_forms/LeafStates text_forms/StateText text_forms/StateOf
        """,
    ),
    (
        "Orders of service",
        "What `-T` shows: the cycle as messages of processors, in the order of a seed, and the mark of that order. That no order "
        "changes a run need not be believed: it is proved (`served_tree`). So without `-T` nothing hangs on this section, and with "
        "it the mark alone.",
        """
        served_tree/Processors served_tree/Service served_tree/Order
        """,
    ),
]

# What a file says, where its first comment doesn't say it in a line.
SAYS = {
    "answer_model/Programs": "How the two programs end: by the outcome of the answer, and by the causes of each status.",
    "answer_model/Status": "The statuses: of each its number, the part of a program that ends so and, for 2 to 5, what must have come about.",
    "atomic_face/StateTable": "The class table, whose states and moves its parameters name.",
    "model_tree/Pull": "What reaches a port: links are followed back, in declared order, to outputs of leaves and inputs of top.",
}

READ_BACK = "what_is_written_is_read nothing_else_is_read"

# What of a file a reader may skip, by which functions of which crate, and what stands in its place.
SKIPS = {
    "answer_model/Outcome": (
        "all of it, where the status is none of a fault or of want of memory",
        "answer_model",
        "outcomes_follow",
        "all is as answered (`Writes` in `Headline.antt`)",
    ),
    "cell_grid/Space": ("`place_of`", "cell_grid", "numbers_and_places", "it is the inverse of `cell_at_place`"),
    "quantity/Arithmetic": ("`root_digits`", "quantity", "sqrt", "its clause `greatest` says that the root is the greatest that fits"),
    "quantity/Times": ("from `time_of` on", "quantity", READ_BACK, "a text is read just where it is that of a time"),
    "quantity/Truth": ("all but `tri_of`", "quantity", "truth_tables", "`Tables.antt` has all answers, row by row"),
    "quantity/ValueTexts": ("from `positive` on", "quantity", READ_BACK, "a text is read just where it is that of a value"),
    "rule_words/Reading": (
        "all of it",
        "rule_syntax",
        "one_outcome",
        "read `Grammar.antt`, and `RuleIs` in `RuleLaws.antt`, in its place",
    ),
    "run_model/CellStep": (
        "the order in `took`",
        "run_model",
        "values_are_taken_by_port",
        "values given at different ports may be taken port by port",
    ),
    "run_model/Run": ("`run_from`", "run_model", "a_run_ends runs", "a run is the one of the relation `Runs` in `Runs.antt`"),
    "served_tree/Order": ("all but the mark", "served_tree", "an_order_of_a_seed_serves", "the order of a seed is one of all orders"),
    "served_tree/Service": (
        "all but the mark",
        "served_tree",
        "runs_are_served_in_any_order",
        "in every order a run is that of section 1",
    ),
    "text_forms/Frames": (
        "from `cell_of_coordinates` on",
        "answer_model",
        "drawn_agrees_for_accepted_models",
        "frames drawn from the log of a run, where it has `Y` lines, are those of the run",
    ),
    "text_forms/LogLine": ("from `at_in` on", "text_forms", READ_BACK, "a text is read just where it is that of a line"),
    "text_forms/StateOf": (
        "all but which line is refused",
        "text_forms",
        READ_BACK,
        "a text is read just where it is that of a state",
    ),
}
