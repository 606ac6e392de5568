//! Request [2] of document 02: texts at the edges of the form, each with the number that its reader
//! answers over tables of the lengths for the text's n, worked by hand.

use crate::sketches::written;

/// First lines, and what may stand before them, that make no sketch.
const HEADS: &[&str] = &[
    "",
    "\n",
    "\ngraph plot {\n",
    "\n\n\ngraph plot {\n",
    " graph plot {\n",
    "\tgraph plot {\n",
    "\u{feff}graph plot {\n",
    "\0graph plot {\n",
    "// crew 3\ngraph plot {\n",
    "# crew 3\ngraph plot {\n",
    "/* crew 3 */ graph plot {\n",
    "digraph plot {\n",
    "strict graph plot {\n",
    "subgraph plot {\n",
    "Graph plot {\n",
    "GRAPH PLOT {\n",
    "graph Plot {\n",
    "graph plots {\n",
    "graph plo {\n",
    "graph \"plot\" {\n",
    "graph {\n",
    "graph plot\n",
    "graph plot\n{\n",
    "graph plot{\n",
    "graphplot {\n",
    "graph  plot {\n",
    "graph plot  {\n",
    "graph\tplot {\n",
    "graph plot { \n",
    "graph plot {;\n",
    "graph plot {{\n",
    "graph plot { // crew 3\n",
    "graph plot {",
    "graph plot {\r\n",
    "graph plot {\r",
    "graph plot {\n\r",
    "graph plot {\n\n",
    "graph plot {\n \n",
    "graph plot {\n// crew 3\n",
    "graph plot {\n  // crew 3\n",
    "graph plot {\n# crew 3\n",
    "graph plot {\n  graph [x=1];\n",
    "graph plot {\ngraph plot {\n",
];

/// What stands between the first line and the last.
const MIDDLES: &[(i64, &str)] = &[
    (0, "  1;\n"),
    (0, "  1;\n  2;\n"),
    (0, "  1;\n  2;\n  3;\n  3 -- 1;\n  2 -- 3;\n  1 -- 2;\n"),
    (16, ""),
    (16, "\n"),
    (16, "  1 -- 2;\n"),
    (16, "  0 -- 0;\n"),
    (16, "  1 -- 2;\n  1;\n  2;\n"),
    (16, "  1;\n  1 -- 2;\n  2;\n"),
    (16, "  1;\n  2;\n  1 -- 2;\n  3;\n"),
    (16, "  1;\n  2;\n  1 -- 2;\n  1;\n  2;\n"),
    (16, "  0;\n"),
    (16, "  0;\n  1;\n"),
    (16, "  2;\n"),
    (16, "  2;\n  1;\n"),
    (16, "  1;\n  3;\n"),
    (16, "  1;\n  3;\n  2;\n"),
    (16, "  1;\n  1;\n"),
    (16, "  1;\n  2;\n  2;\n"),
    (16, "  1;\n  0;\n"),
    (16, "  1;\n  99;\n"),
    (16, "1;\n"),
    (16, " 1;\n"),
    (16, "   1;\n"),
    (16, "\t1;\n"),
    (16, " \t1;\n"),
    (16, "\u{a0} 1;\n"),
    (16, "  1\n"),
    (16, "  1"),
    (16, "  1;"),
    (16, "  1;\r\n"),
    (16, "  1;\r"),
    (16, "  1;\n\r"),
    (16, "  1 ;\n"),
    (16, "  1; \n"),
    (16, "  1;;\n"),
    (16, "  1,\n"),
    (16, "  1:\n"),
    (16, "  ;\n"),
    (16, "  1; 2;\n"),
    (16, "  1;  2;\n"),
    (16, "  1 2;\n"),
    (16, "  01;\n"),
    (16, "  001;\n"),
    (16, "  +1;\n"),
    (16, "  -1;\n"),
    (16, "  1.0;\n"),
    (16, "  0x1;\n"),
    (16, "  \"1\";\n"),
    (16, "  a;\n"),
    (16, "  1 [label=x];\n"),
    (16, "  1; // crew 3\n"),
    (16, "  1;\n\n"),
    (16, "  1;\n  \n"),
    (16, "  1;\n\n  2;\n"),
    (16, "  1;\n// crew 3\n  2;\n"),
    (16, "  1;\n  }\n"),
    (16, "  1;\n}\n  2;\n"),
    (16, "  4294967297;\n"),
    (16, "  18446744073709551617;\n"),
];

/// Links of a plot of 2 stations.
const LINKS: &[(i64, &str)] = &[
    (0, "  1 -- 2;\n"),
    (0, "  2 -- 1;\n"),
    (17, "  0 -- 0;\n"),
    (17, "  0 -- 1;\n"),
    (17, "  2 -- 0;\n"),
    (17, "  1 -- 1;\n"),
    (17, "  2 -- 2;\n"),
    (17, "  3 -- 3;\n"),
    (17, "  1 -- 3;\n"),
    (17, "  3 -- 2;\n"),
    (17, "  1 -- 9;\n"),
    (17, "  10 -- 2;\n"),
    (17, "  1 -- 16;\n"),
    (17, "  17 -- 1;\n"),
    (17, "  99 -- 1;\n"),
    (17, "  1 -- 99;\n"),
    (17, "  99 -- 99;\n"),
    (17, "  1 -- 2;\n  1 -- 2;\n"),
    (17, "  1 -- 2;\n  2 -- 1;\n"),
    (17, "  2 -- 1;\n  1 -- 2;\n"),
    (17, "  2 -- 1;\n  2 -- 1;\n"),
    (17, "  1 -- 2;\n  0 -- 1;\n"),
    (17, "  0 -- 1;\n  1 -- 2;\n"),
    (16, "  0 -- 1;\n  1 -- 2\n"),
    (16, "  1 -- 1;\n  1 -- 2;\n\n"),
    (16, "  1 -- 2;\n  1 -- 2;\n  3;\n"),
    (16, "  9 -- 9;\n  100 -- 1;\n"),
    (16, "  1 -- 2"),
    (16, "  1 -- 2\n"),
    (16, "  1 -- 2;"),
    (16, "  1 -- 2;\r\n"),
    (16, "  1 -- 2;\r"),
    (16, "  1 -- 2; \n"),
    (16, "  1 -- 2;;\n"),
    (16, "  1 -- 2 ;\n"),
    (16, "  1 -- 2,\n"),
    (16, "  1 -- 2:\n"),
    (16, "1 -- 2;\n"),
    (16, " 1 -- 2;\n"),
    (16, "   1 -- 2;\n"),
    (16, "\t1 -- 2;\n"),
    (16, "  1  -- 2;\n"),
    (16, "  1 --  2;\n"),
    (16, "  1\t-- 2;\n"),
    (16, "  1 --\t2;\n"),
    (16, "  1\u{a0}-- 2;\n"),
    (16, "  1--2;\n"),
    (16, "  1 --2;\n"),
    (16, "  1-- 2;\n"),
    (16, "  1 -> 2;\n"),
    (16, "  1 <- 2;\n"),
    (16, "  1 - 2;\n"),
    (16, "  1 --- 2;\n"),
    (16, "  1 - - 2;\n"),
    (16, "  1 \u{2014} 2;\n"),
    (16, "  1 2;\n"),
    (16, "  1 -- ;\n"),
    (16, "   -- 2;\n"),
    (16, "  -- ;\n"),
    (16, "  --;\n"),
    (16, "  01 -- 2;\n"),
    (16, "  1 -- 02;\n"),
    (16, "  00 -- 1;\n"),
    (16, "  1 -- 00;\n"),
    (16, "  001 -- 2;\n"),
    (16, "  100 -- 1;\n"),
    (16, "  1 -- 100;\n"),
    (16, "  1 -- 257;\n"),
    (16, "  65537 -- 2;\n"),
    (16, "  4294967297 -- 2;\n"),
    (16, "  1 -- 18446744073709551618;\n"),
    (16, "  +1 -- 2;\n"),
    (16, "  -1 -- 2;\n"),
    (16, "  1 -- -2;\n"),
    (16, "  1 -- +2;\n"),
    (16, "  1.0 -- 2;\n"),
    (16, "  1 -- 0x2;\n"),
    (16, "  a -- b;\n"),
    (16, "  1a -- 2;\n"),
    (16, "  1 -- 2b;\n"),
    (16, "  : -- 1;\n"),
    (16, "  1 -- /;\n"),
    (16, "  \u{661} -- 2;\n"),
    (16, "  1 -- \u{ff12};\n"),
    (16, "  \"1\" -- 2;\n"),
    (16, "  1 -- {2 3};\n"),
    (16, "  1 -- 2 -- 1;\n"),
    (16, "  1 -- 2 [x=1];\n"),
    (16, "  1 -- 2; 1 -- 2;\n"),
    (16, "  1 -- 2;  2 -- 1;\n"),
    (16, "  1 -- 2; // crew 3\n"),
    (16, "  // crew 3\n  1 -- 2;\n"),
    (16, "\n  1 -- 2;\n"),
    (16, "  1 -- 2;\n\n"),
    (16, "  1 -- 2;\n\n  2 -- 1;\n"),
    (16, "  1 -- 2;\n  \n"),
    (16, "  1 -- 2;\n \n"),
];

/// Ends that a sketch does not have.
const ENDS: &[&str] = &[
    "",
    "\n",
    "}",
    "} ",
    "} \n",
    " }\n",
    "  }\n",
    "\t}\n",
    "}\r\n",
    "}\r",
    "};\n",
    "}}\n",
    "{\n",
    "]\n",
    "}\n\n",
    "}\n ",
    "}\n}",
    "}\n}\n",
    "}\n\0",
    "}\0\n",
    "\0}\n",
    "}\n\r",
    "}\n\r\n",
    "\n}\n",
    "\n}",
    "}x\n",
    "}\nx",
    "}\n  1;\n",
    "}\n  1 -- 2;\n",
    "}\ngraph plot {\n  1;\n}\n",
    "} // crew 3\n",
    "}\n// crew 3\n",
];

/// All of these as whole texts, then those with other bytes than text, the full plots and the long ones.
pub fn corners() -> Vec<(i64, Vec<u8>)> {
    let heads = HEADS
        .iter()
        .map(|head| (16, format!("{head}  1;\n  2;\n  1 -- 2;\n}}\n")));
    let middles = MIDDLES
        .iter()
        .map(|(due, middle)| (*due, format!("graph plot {{\n{middle}}}\n")));
    let links = LINKS
        .iter()
        .map(|(due, links)| (*due, format!("graph plot {{\n  1;\n  2;\n{links}}}\n")));
    let ends = ENDS
        .iter()
        .map(|end| (16, format!("graph plot {{\n  1;\n  2;\n  1 -- 2;\n{end}")));
    let texts = heads.chain(middles).chain(links).chain(ends);
    let mut all: Vec<(i64, Vec<u8>)> = texts.map(|(due, text)| (due, text.into_bytes())).collect();
    all.extend(bare());
    all.extend(counts());
    all.extend(long());
    all
}

/// Next to nothing, and bytes that are no text.
fn bare() -> Vec<(i64, Vec<u8>)> {
    let texts: [&[u8]; 10] = [
        b"",
        b"\0",
        b"\xff",
        b"graph plot {}\n",
        b"graph plot { 1; 2; 1 -- 2; }\n",
        b"graph plot {\n  1;\n  2;\n  1 -- 2\xff;\n}\n",
        b"graph plot {\n  1;\n  2;\n  \xb1 -- 2;\n}\n",
        b"graph plot {\n  1;\n  2;\0\n}\n",
        b"graph plot {\r\n  1;\r\n  2;\r\n  1 -- 2;\r\n}\r\n",
        b"graph plot {\r  1;\r  2;\r  1 -- 2;\r}\r",
    ];
    texts.into_iter().map(|text| (16, text.to_vec())).collect()
}

/// Every two of the n stations once.
fn every_link(n: u32) -> Vec<(u32, u32)> {
    (1..=n)
        .flat_map(|a| (a + 1..=n).map(move |b| (a, b)))
        .collect()
}

/// Numbers of stations in and out of range, alone and with every link; with one link too many.
fn counts() -> Vec<(i64, Vec<u8>)> {
    let mut all = Vec::new();
    for n in [0, 1, 2, 9, 10, 11, 15, 16, 17, 18, 32, 99, 100, 257] {
        let (due, with_one_more) = if (1..=16).contains(&n) {
            (0, 17)
        } else {
            (16, 16)
        };
        all.push((due, written(n, &[])));
        let links = every_link(n.min(17));
        all.push((due, written(n, &links)));
        let turned: Vec<(u32, u32)> = links.iter().rev().map(|(a, b)| (*b, *a)).collect();
        all.push((due, written(n, &turned)));
        for more in [(0, 1), (n, n), (1, n + 1), (n + 1, 1), (2, 1)] {
            all.push((with_one_more, written(n, &[&links[..], &[more]].concat())));
        }
    }
    all
}

/// Texts far longer than any that is accepted.
fn long() -> Vec<(i64, Vec<u8>)> {
    let good = written(2, &[(1, 2); 5_000]);
    let wide = written(16, &[(99, 98); 10_000]);
    let start = &b"graph plot {\n  1;\n  2;\n"[..];
    let filled = |piece: &[u8]| [start, &piece.repeat(70_000), b"}\n"].concat();
    let digits = [start, b"  1", &b"0".repeat(70_000)[..], b" -- 2;\n}\n"].concat();
    let zeros = [start, b"  ", &b"0".repeat(70_000)[..], b"1 -- 2;\n}\n"].concat();
    vec![
        (16, [&good[..], b"x"].concat()),
        (16, good[..good.len() - 1].to_vec()),
        (16, good[..good.len() - 2].to_vec()),
        (16, [&good[..good.len() - 2], b"  1 -- 2;\r\n}\n"].concat()),
        (16, [&good[..good.len() - 2], b"  3;\n}\n"].concat()),
        (17, good),
        (16, wide[..wide.len() - 3].to_vec()),
        (17, wide),
        (16, filled(b"\n")),
        (16, filled(b" ")),
        (16, filled(b"}\n")),
        (16, filled(b"  3;\n")),
        (16, filled(b"// crew 3\n")),
        (16, digits),
        (16, zeros),
        (16, b"graph plot {".repeat(6_000)),
        (16, b"\n".repeat(70_000)),
        (16, vec![0; 70_000]),
    ]
}
