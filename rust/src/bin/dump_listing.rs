//! `dump_listing`: writes document 01's case C10 as a value change dump, to be opened in a viewer.

#[cfg(not(archive))]
fn main() {
    eprintln!("dump_listing: the archive is not there: `rt lib` in crates/exports builds it");
    std::process::exit(1);
}

#[cfg(archive)]
fn main() -> std::io::Result<()> {
    use core_trace::exports::dump_to;
    use core_trace::listing;

    dump_to(&listing::trace(), &mut std::io::stdout().lock()).map(|_| ())
}
