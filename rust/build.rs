//! Cuts the ported functions out of the listed files, unchanged, and finds the archive of the proved library.
//!
//! `LISTED_SRC` names the folder of the listed files (the default is `../../shared/docs/src`), `CORE_TRACE_ARCHIVE` the folder of
//! `libexports.a` (the default is `../crates/exports/out`). What is not there is left out: `cfg(listed)`, `cfg(archive)`.

use std::path::{Path, PathBuf};
use std::{env, fs};

/// A file of the listed Rust, the file that is made of it, and the items that are cut out: each is given by the text that its first
/// line begins with.
const CUTS: &[(&str, &str, &[&str])] = &[
    (
        "src/continuation_stack.rs",
        "continuation_stack.rs",
        &[
            "pub(crate) struct DebugActivationId",
            "impl PartialEq for DebugActivationId",
            "impl Eq for DebugActivationId",
            "struct DebugActivations",
            "impl DebugActivations",
            "const CONTINUATION_STACK_SIZE_HINT",
            "pub enum Continuation<F>",
            "impl<F> Continuation<F>",
            "pub struct ContinuationStack<F>",
            "impl<F> Default for ContinuationStack<F>",
            "impl<F> ContinuationStack<F>",
        ],
    ),
    ("src/tracer.rs", "tracer_trait.rs", &["pub trait Tracer", "pub enum OperationHelperRegisters", "impl OperationHelperRegisters"]),
    (
        "src/trace/utils.rs",
        "utils.rs",
        &["pub struct RowMajorTraceWriter", "impl<'a, E: Copy> RowMajorTraceWriter", "pub(crate) fn split_u32_into_u16"],
    ),
    (
        "src/trace/trace_state.rs",
        "trace_state.rs",
        &[
            "pub struct CoreTraceState",
            "pub struct SystemState",
            "pub struct DecoderState",
            "impl DecoderState",
            "pub struct StackState",
            "impl StackState",
            "pub struct BlockStackReplay",
            "impl BlockStackReplay",
            "pub enum EndBlockStackEntryKind",
            "pub struct EndBlockFlags",
            "impl EndBlockFlags",
            "pub struct NodeEndData",
            "pub struct MemoryReadsReplay",
            "impl MemoryReadsReplay",
            "pub struct BlockAddressReplay",
            "impl BlockAddressReplay",
            "pub struct StackOverflowReplay",
            "impl Default for StackOverflowReplay",
            "impl StackOverflowReplay",
        ],
    ),
    (
        "src/trace/parallel/core_trace_fragment/mod.rs",
        "core_trace_fragment.rs",
        &["pub struct BasicBlockContext", "impl BasicBlockContext"],
    ),
    (
        "src/trace/parallel/tracer/mod.rs",
        "tracer.rs",
        &[
            "pub(crate) struct TracerFinalState",
            "pub(crate) struct CoreTraceGenerationTracer",
            "impl<'a> CoreTraceGenerationTracer<'a>",
            "impl Tracer for CoreTraceGenerationTracer",
            "fn get_node_in_forest<F>",
            "fn get_digest_in_forest<F>",
        ],
    ),
    (
        "src/trace/parallel/mod.rs",
        "parallel.rs",
        &[
            "pub const CORE_TRACE_WIDTH",
            "pub const CORE_STORAGE_WIDTH",
            "fn generate_core_trace_row_major",
            "fn set_loop_body_multiplicities",
            "fn decode_opcode",
            "fn fixup_stack_and_system_rows",
            "fn push_halt_opcode_row",
            "fn pad_core_row_major",
        ],
    ),
];

/// The item whose first line begins with `first`, with its comments and attributes, to the line that ends it.
fn item(text: &str, first: &str) -> Option<String> {
    let lines: Vec<&str> = text.lines().collect();
    let at = lines.iter().position(|line| line.starts_with(first))?;
    let is_head = |line: &str| line.starts_with("///") || line.starts_with("#[");
    let head = (0..at).rev().take_while(|&i| is_head(lines[i])).last().unwrap_or(at);
    let is_end = |line: &str| line.starts_with('}') || !line.starts_with(' ') && (line.ends_with(';') || line.ends_with("{}"));
    let end = (at..lines.len()).find(|&i| is_end(lines[i]))?;
    Some(lines[head..=end].join("\n"))
}

/// All that stands behind the `use` lines of a file.
fn after_uses(text: &str) -> String {
    let lines: Vec<&str> = text.lines().collect();
    let mut last = 0;
    let mut inside = false;
    for (i, line) in lines.iter().enumerate() {
        inside |= line.starts_with("use ");
        if inside && line.ends_with(';') {
            last = i + 1;
            inside = false;
        }
    }
    lines[last..].join("\n")
}

/// The third pass: a block inside `generate_core_trace_row_major`, from its opening brace to its closing one.
fn third_pass(text: &str) -> Option<String> {
    let lines: Vec<&str> = text.lines().collect();
    let comment = lines.iter().position(|line| line.contains("Run batch inversion on stack's H0 helper column"))?;
    let first = (comment..lines.len()).find(|&i| lines[i] == "    {")?;
    let end = (first..lines.len()).find(|&i| lines[i] == "    }")?;
    Some(lines[first..=end].join("\n"))
}

fn cut(source: &Path, out: &Path) -> Result<(), String> {
    let read = |name: &str| fs::read_to_string(source.join(name)).map_err(|e| format!("{name}: {e}"));
    for (name, made, items) in CUTS {
        let text = read(name)?;
        let mut all = Vec::new();
        for first in *items {
            all.push(item(&text, first).ok_or_else(|| format!("{name} has no `{first}`"))?);
        }
        fs::write(out.join(made), all.join("\n\n") + "\n").map_err(|e| e.to_string())?;
    }
    let rows = after_uses(&read("src/trace/parallel/tracer/trace_row.rs")?);
    fs::write(out.join("trace_row.rs"), rows + "\n").map_err(|e| e.to_string())?;
    let block = third_pass(&read("src/trace/parallel/mod.rs")?).ok_or("parallel/mod.rs has no third pass")?;
    fs::write(out.join("third_pass.rs"), block + "\n").map_err(|e| e.to_string())
}

fn main() {
    println!("cargo::rustc-check-cfg=cfg(listed)");
    println!("cargo::rustc-check-cfg=cfg(archive)");
    println!("cargo::rerun-if-env-changed=LISTED_SRC");
    println!("cargo::rerun-if-env-changed=CORE_TRACE_ARCHIVE");
    println!("cargo::rerun-if-changed=build.rs");
    let here = PathBuf::from(env::var("CARGO_MANIFEST_DIR").unwrap());
    let out = PathBuf::from(env::var("OUT_DIR").unwrap()).join("listed");

    let source = here.join(env::var("LISTED_SRC").unwrap_or_else(|_| "../../shared/docs/src".into()));
    println!("cargo::rerun-if-changed={}", source.display());
    if source.join("src").is_dir() {
        fs::create_dir_all(&out).unwrap();
        cut(&source, &out).unwrap_or_else(|e| panic!("the listed files at {}: {e}", source.display()));
        println!("cargo::rustc-cfg=listed");
    } else {
        println!("cargo::warning=no listed Rust at {}: the comparison with it is left out", source.display());
    }

    let archive = here.join(env::var("CORE_TRACE_ARCHIVE").unwrap_or_else(|_| "../crates/exports/out".into()));
    println!("cargo::rerun-if-changed={}", archive.join("libexports.a").display());
    if archive.join("libexports.a").is_file() {
        println!("cargo::rustc-link-search=native={}", archive.display());
        println!("cargo::rustc-link-lib=static=exports");
        println!("cargo::rustc-cfg=archive");
    } else {
        println!("cargo::warning=no libexports.a at {}: run `rt lib` in crates/exports first", archive.display());
    }
}
