//! Plans at each limit and one beyond it, plans nested as deep as can be, and plans whose text
//! explodes.

use super::{Form, Tally, answer};
use std::time::{Duration, Instant};

/// How many rows each table of a plan has; the rest is as small as can be.
#[derive(Clone)]
struct Sizes {
    files: usize,
    syms: usize,
    positions: usize,
    types: usize,
    variants: usize,
    terms: usize,
    generated: usize,
    bindings: usize,
    rows: usize,
    deepest: usize,
}

const SMALL: Sizes = Sizes {
    files: 0,
    syms: 1,
    positions: 1,
    types: 1,
    variants: 0,
    terms: 1,
    generated: 1,
    bindings: 1,
    rows: 0,
    deepest: 0,
};

fn rows(count: usize, row: &str) -> String {
    format!("{row}\n").repeat(count)
}

impl Sizes {
    fn plan(&self) -> String {
        let mut plan = format!(
            "nopragmas log split threshold\n0 0 0 -\n\nfile\n{}\nsym\n{}\npos\n{}\n",
            rows(self.files, "f"),
            rows(self.syms, "s"),
            rows(self.positions, "p")
        );
        plan += &format!(
            "kind name extern nodebug pos list\n{}\ntype name shape list\n{}\n",
            rows(self.types, "enum 0 0 0 0 -"),
            rows(self.variants, "13 0 unit -")
        );
        plan += "name pos ret multi partial ctor xtor infallible list\n";
        plan += &format!("{}\n", rows(self.terms, "0 0 0 1 0 in - 0 -"));
        plan + &self.generated().repeat(self.generated)
    }

    fn generated(&self) -> String {
        let steps = (0..self.deepest).map(|level| format!("{level} equal 0 0 -\n"));
        format!(
            "term\n0\n\nkind a b list\n{}\nlevel kind a b list\n{}{}\n",
            rows(self.bindings, "bool 0 - -"),
            rows(self.rows, "0 return 0 0 -"),
            steps.collect::<String>()
        )
    }
}

type Grow = fn(usize) -> Sizes;

/// Each table's most: as many rows as that pass, one more is refused with 4.
const MOST: &[(&str, usize, Grow)] = &[
    ("files", 64, |files| Sizes { files, ..SMALL }),
    ("syms", 2_048, |syms| Sizes { syms, ..SMALL }),
    ("positions", 2_048, |positions| Sizes { positions, ..SMALL }),
    ("types", 243, |types| Sizes { types, ..SMALL }),
    ("variants", 1_024, |variants| Sizes { variants, ..SMALL }),
    ("terms", 512, |terms| Sizes { terms, ..SMALL }),
    ("generated terms", 64, |generated| Sizes {
        generated,
        ..SMALL
    }),
    ("bindings", 1_024, |bindings| Sizes { bindings, ..SMALL }),
    ("block rows", 2_048, |rows| Sizes { rows, ..SMALL }),
    ("levels", 64, |deepest| Sizes { deepest, ..SMALL }),
];

pub fn limits(tally: &mut Tally) {
    for (table, most, grow) in MOST {
        tally.refusal(&format!("{most} {table}"), 0, &grow(*most).plan());
        tally.refusal(&format!("{} {table}", most + 1), 4, &grow(most + 1).plan());
        let also_5 = |rows| grow(rows).plan().replacen("enum 0 ", "enum 9999 ", 1);
        tally.refusal(
            &format!("{most} {table} and no such name"),
            5,
            &also_5(*most),
        );
        tally.refusal(
            &format!("{} {table} and no such name", most + 1),
            4,
            &also_5(most + 1),
        );
    }
    let mut deep = Sizes {
        deepest: 65,
        ..SMALL
    }
    .plan();
    deep.truncate(deep.len() - 1);
    tally.refusal(
        "reading 27, a fault below level 63",
        3,
        &(deep + "66 equal 0 0 -\n\n"),
    );
    let plan = SMALL.plan();
    for (length, expected) in [(65_536, 0), (65_537, 1)] {
        let long = "f".repeat(length - plan.len() - 1);
        let plan = plan.replacen("file\n", &format!("file\n{long}\n"), 1);
        assert_eq!(plan.len(), length);
        tally.refusal(&format!("{length} bytes"), expected, &plan);
    }
}

/// A plan whose one term returns the last of `count` bindings, each written through the one
/// before it; binding 0 is the argument. `sources` is how often the one before is a source.
fn nested(kind: &str, sources: usize, count: usize) -> String {
    let chain = (1..count).map(|i| {
        let list = vec![(i - 1).to_string(); sources].join(",");
        format!("{kind} {list}\n")
    });
    let fields = vec!["0:13"; sources].join(",");
    let args = vec!["13"; sources].join(",");
    format!(
        "nopragmas log split threshold\n0 0 0 -\n\nfile\n\nsym\ns\n\npos\np\n\n\
         kind name extern nodebug pos list\nenum 0 0 0 0 -\nnamed 0 0 0 0 {fields}\n\n\
         type name shape list\n13 0 named {fields}\n\n\
         name pos ret multi partial ctor xtor infallible list\n0 0 13 0 0 0 0 0 {args}\n\n\
         term\n0\n\nkind a b list\narg 0 - -\n{}\n\
         level kind a b list\n0 return {} 0 -\n\n",
        chain.collect::<String>(),
        count - 1
    )
}

/// The kinds whose sources are written, and the text before and after a source.
const RECURSIVE: &[(&str, &str, &str)] = &[
    ("extract 0 -", "&C::s(ctx, ", ")"),
    ("construct 0 -", "&C::s(ctx, ", ")"),
    ("iter - -", "", ".next() /*FIXME*/"),
    ("variant 13 0", "s::s {\n", "}"),
    ("struct 14 -", "s {\n", "}"),
    ("some - -", "Some(", ")"),
    ("matchsome - -", "", "?"),
    ("matchtuple 7 -", "", ".7"),
    ("matchvariant 7 -", "", ".7 /*FIXME*/"),
    ("extractstruct 7 -", "", ".7 /*FIXME*/"),
];

/// 1,024 bindings, each the source of the next.
pub fn nesting(tally: &mut Tally) {
    for (kind, before, after) in RECURSIVE {
        let plan = nested(kind, 1, 1_024);
        for form in [Form::Whole, Form::Terms] {
            let got = answer(plan.as_bytes(), form, 1 << 24);
            let pieces = [*before, *after].map(|piece| got.text.matches(piece).count() >= 1_023);
            tally.expect(
                &format!("1,024 nested {kind}"),
                (0, [true; 2]),
                (got.number, pieces),
            );
        }
    }
}

/// Each binding has the one before it as a source twice: the text has more than 2^1000 bytes. The
/// bound on the time only tells an answer from no answer.
pub fn explosion(tally: &mut Tally) {
    for kind in ["construct 0 -", "variant 13 0", "struct 14 -"] {
        let plan = nested(kind, 2, 1_024);
        for buffer in [0, 65_536, 1 << 24] {
            let start = Instant::now();
            let got = answer(plan.as_bytes(), Form::Whole, buffer);
            let at_once = start.elapsed() < Duration::from_secs(10);
            tally.expect(
                &format!("exploding {kind}, {buffer}"),
                (11, true),
                (got.number, at_once),
            );
        }
    }
}
