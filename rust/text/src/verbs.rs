//! The verbs: their words, what they do in a line, what else is to be said, and an example.

/// A verb, for the command line and its help.
pub struct Verb {
    pub name: &'static str,
    /// The words after it, as the usage writes them.
    pub form: &'static str,
    /// How many words it needs, and how many it takes.
    pub least: usize,
    pub most: usize,
    /// In one line.
    pub what: &'static str,
    /// What else its help says.
    pub more: &'static str,
    /// A command, from the folder of the repository.
    pub example: &'static str,
    /// Beside the options for files.
    pub options: &'static [&'static str],
    /// It answers in sentences, or with --json in objects.
    pub answers: bool,
    /// It takes an INPUT.
    pub input: bool,
    /// It reads its own options.
    pub own_options: bool,
}

const ANY: usize = usize::MAX;

const fn verb(name: &'static str, form: &'static str, least: usize, most: usize, what: &'static str) -> Verb {
    let (more, example, options) = ("", "", &[]);
    Verb { name, form, least, most, what, more, example, options, answers: false, input: true, own_options: false }
}

impl Verb {
    const fn more(self, more: &'static str) -> Verb {
        Verb { more, ..self }
    }

    const fn example(self, example: &'static str) -> Verb {
        Verb { example, ..self }
    }

    const fn options(self, options: &'static [&'static str]) -> Verb {
        Verb { options, ..self }
    }

    const fn answers(self) -> Verb {
        Verb { answers: true, ..self }
    }

    const fn without_input(self) -> Verb {
        Verb { input: false, ..self }
    }

    const fn own_options(self) -> Verb {
        Verb { own_options: true, ..self }
    }
}

const BRANCH: &str = "[TABLE] UPPER LOWER [all|dot|svg]";
const BRANCH_MORE: &str =
    "TABLE is a branch table's file, text or bytes; it may be given by --branch FILE too. Of a long
path the first and last nodes are told; all: every one; dot, svg: the path as a picture.";
const MEND: &str =
    "Of the plan as it is, or with the changes of a question made: then its nodes keep what it gives them.
--keep NODES: these nodes keep their labels. --burs LABELS: no node takes another label; names of labels will do.
NODES and LABELS are numbers with commas between them, FIRST-LAST, or the option again.
--next N: up to N further ways, fewest changes first; none contains another.";
const ROBUST: &str = "Of the plan as it is, or with the changes of a question made.
--keep NODES: these nodes have no wrong label. --burs LABELS: no other label is taken by mistake.";
const PAGES: &str = "Above 25 parts or 12 rows an outline has pages; --page N is another one than the first.
--allowed: marked are the nodes that can take one label alone, changes made, and those that can take none.";

/// In the order of the help.
pub const ALL: &[Verb] = &[
    verb("answer", "", 0, 0, "a sentence for each question").answers().example("whatif-text answer < examples/sample.txt"),
    verb("why", "QUESTION [all]", 1, 2, "the states from each changed node up, until they rejoin the old run")
        .more("all: every step, also of long paths. Last: which states and labels would clear the plan, and where.")
        .answers().example("whatif-text why 4 < examples/sample.txt"),
    verb("suggest", "[NODE ..]", 0, ANY, "each single change that turns the verdict, as questions to paste")
        .more("Of the whole plan, or of these nodes. --first N: the N nearest to the root alone; how many there are is said.
--robust: the nodes of a cleared plan where every other label loses the clearance, nearest to the root first.")
        .options(&["--first", "--robust"])
        .answers().example("whatif-text suggest 2 5 < examples/sample.txt"),
    verb("mend", "[QUESTION]", 0, 1, "the least that must change so that the plan is cleared, as a question to paste")
        .more(MEND)
        .options(&["--keep", "--burs", "--next"])
        .answers().example("whatif-text mend 2 --keep 0,6 --next 3 < examples/sample.txt"),
    verb("robust", "[QUESTION]", 0, 1, "how many wrong labels can lose the clearance, with an example")
        .more(ROBUST)
        .options(&["--keep", "--burs"])
        .answers().example("whatif-text robust < examples/sample.txt"),
    verb("count", "[NODE ..]", 0, ANY, "how many choices of labels for these nodes end in each state, and one that clears")
        .answers().example("whatif-text count 0 2 < examples/sample.txt"),
    verb("outline", "QUESTION [dot|svg]", 1, 2, "the roots of the parts as a picture, with their states and climbs")
        .more(PAGES)
        .options(&["--page", "--allowed"])
        .example("whatif-text outline 4 svg < examples/sample.txt > outline.svg"),
    verb("dot", "QUESTION", 1, 1, "the whole plan with the parts, for Graphviz; above 100 nodes the outline")
        .more(PAGES)
        .options(&["--page", "--allowed"])
        .example("whatif-text dot 4 < examples/sample.txt > plan.gv"),
    verb("svg", "QUESTION", 1, 1, "the same picture as SVG, without Graphviz")
        .more(PAGES)
        .options(&["--page", "--allowed"])
        .example("whatif-text svg 4 < examples/sample.txt > plan.svg"),
    verb("page", "QUESTION", 1, 1, "a lesson: the question call by call, as a page for a browser")
        .more("One file, which opens without network. Above 100 nodes it has the outline's nodes, and unfolds.
Where the plan is not cleared, it ends with the least that must change and the mended plan, as mend QUESTION has them.
--allowed: once it is answered, marked are the nodes that can take one label alone, and those that can take none.")
        .options(&["--allowed"])
        .example("whatif-text page 4 < examples/sample.txt > lesson.html"),
    verb("sheet", "QUESTION", 1, 1, "the question to work out by hand: a page to print, the solution on the next one")
        .example("whatif-text sheet 4 < examples/sample.txt > sheet.html"),
    verb("rules", "dot|svg", 1, 1, "the rule table as a picture: a grid for each label")
        .example("whatif-text rules svg < examples/sample.txt > rules.svg"),
    verb("branch-table", "dot|svg", 1, 1, "the branch table of --branch FILE as a picture")
        .example("whatif-text branch-table svg --branch examples/branch.txt > branch.svg"),
    verb("over", "LOWER UPPER", 2, 2, "question UPPER's list laid over question LOWER's, as a question to paste")
        .answers().example("whatif-text over 4 9 < examples/sample.txt"),
    verb("branch", BRANCH, 3, 4, "what a branch table makes of the labels from below node UPPER down to node LOWER")
        .more(BRANCH_MORE)
        .answers().example("whatif-text branch examples/branch.txt 6 4 < examples/sample.txt"),
    verb("branch-with-upper", BRANCH, 3, 4, "the same with the upper node's label as the first letter")
        .more(BRANCH_MORE)
        .answers().example("whatif-text branch-with-upper examples/branch.txt 6 4 < examples/sample.txt"),
    verb("colours", BRANCH, 3, 4, "branch by colours: the colour at each node of the path, with the drops marked")
        .more(BRANCH_MORE)
        .answers().example("whatif-text colours --branch examples/colours.txt 6 4 < examples/sample.txt"),
    verb("colours-with-upper", BRANCH, 3, 4, "the same with the upper node's label as the first letter")
        .more(BRANCH_MORE)
        .answers().example("whatif-text colours-with-upper examples/colours.txt 6 4 < examples/sample.txt"),
    verb("session", "SCRIPT", 1, 1, "what each call of a script answers: load, start, advance, cancel, read")
        .more("A line is load, start NODE->LABEL .., start none, advance [TIMES|all], cancel or read.")
        .answers().example("whatif-text session examples/session.txt < examples/sample.txt"),
    verb("screens", "SCRIPT", 1, 1, "the same for eight screens on one mill: load, start, deal, cancel, read")
        .more("A line is load, start SCREEN NODE->LABEL .., start SCREEN none, deal [TIMES|all], cancel SCREEN or read SCREEN.")
        .answers().example("whatif-text screens examples/screens.txt < examples/sample.txt"),
    verb("screens-page", "SCRIPT", 1, 1, "the same as a page for a browser: who is served, who is next, who waits")
        .example("whatif-text screens-page examples/screens.txt < examples/sample.txt > screens.html"),
    verb("build", "NODES STATES", 2, 2, "writes node table and state table into two files")
        .answers().example("whatif-text build nodes.tab states.tab < examples/sample.txt"),
    verb("check", "NODES STATES", 2, 2, "are these the tables that build writes? else the first wrong node")
        .answers().example("whatif-text check nodes.tab states.tab < examples/sample.txt"),
    verb("planner", "import|export|dot|svg", 1, 1, "a planner's tree to our plan, home again, or both as a picture")
        .more("The input is text or bytes: a planner's file, or for export a plan. With --bytes bytes are written too:\nthe plan's, or for export the planner's file.")
        .example("whatif-text planner import < examples/planner.txt")
        .options(&["--bytes"]),
    verb("write", "[plan|rules|questions|branch]", 0, 1, "text to bytes: all in one, as whatif reads them, or one of them")
        .more("branch: the branch table of --branch FILE.")
        .example("whatif-text write plan < examples/sample.txt > plan.bin"),
    verb("show", "", 0, 0, "bytes to text").example("whatif-text show < examples/sample.bin"),
    verb("merge", "FILE FILE", 2, 2, "the rules that clear what the rules of both files clear, as text")
        .without_input()
        .example("whatif-text merge examples/sample.txt examples/sample.txt"),
    verb("agree", "FILE FILE [dot|svg]", 2, 3, "do two rules judge every plan alike? else a plan that they judge differently")
        .without_input()
        .answers().example("whatif-text agree examples/sample.txt examples/sample.txt"),
    verb("completions", "bash|zsh|fish", 1, 1, "what a shell is to offer for whatif-text, as its script")
        .without_input()
        .example("whatif-text completions bash > whatif-text.bash"),
    verb("exercise", "fault|mend K|share A/B ..", 0, ANY, "a plan with that property, as a sheet with its solution")
        .more("fault: not cleared, and one node alone can mend it. mend K: by exactly K single changes. share A/B: exactly that\nshare of the choices for the open nodes clears it. [--open M] [--as sheet|text] and the options of random.")
        .without_input()
        .own_options()
        .example("whatif-text exercise mend 3 --nodes 11 > exercise.html"),
    verb("random", "--nodes N --shape arch|comb|balanced|random ..", 0, ANY, "a plan to try, with rules and questions, as text")
        .more("[--states S] [--labels K] [--questions Q] [--changes M] [--rules lasting|random] [--seed X]")
        .without_input()
        .own_options()
        .example("whatif-text random --nodes 31 --shape arch --seed 6"),
];
