//! docs/ETAGERE.md: the right-hand column of its table says nothing that its code, which the documentation tests run, does not have; and
//! its left-hand column has every public name of etagere's allocator. The theorems that `Atlas` cites are in the repository.

const PAGE: &str = include_str!("../../../docs/ETAGERE.md");

/// The cells of the table under "Call by call".
fn rows() -> Vec<Vec<&'static str>> {
    let (_, part) = PAGE.split_once("## Call by call").unwrap();
    let table = part.lines().skip_while(|line| !line.starts_with("|---")).skip(1);
    table.take_while(|line| line.starts_with('|')).map(|line| line.split('|').map(str::trim).collect()).collect()
}

/// What a cell has between backquotes.
fn quoted(cell: &str) -> impl Iterator<Item = &str> {
    cell.split('`').skip(1).step_by(2)
}

#[test]
fn every_right_hand_code_is_run() {
    let code: Vec<&str> = PAGE.split("```").skip(1).step_by(2).collect();
    let mut seen = 0;
    for row in rows() {
        for words in quoted(row[2]) {
            assert!(code.iter().any(|block| block.contains(words)), "`{words}` stands in no code of the page");
            seen += 1;
        }
    }
    assert!(seen >= 30, "{seen}");
}

#[test]
fn every_name_of_etagere_is_there() {
    let left: String = rows().iter().map(|row| row[1]).collect::<Vec<_>>().join("\n");
    for name in [
        "BucketedAtlasAllocator::new",
        "BucketedAtlasAllocator::with_options",
        "AllocatorOptions {",
        "alignment:",
        "vertical_shelves:",
        "num_columns:",
        "DEFAULT_OPTIONS",
        "Default::default()",
        "atlas.clear()",
        "atlas.size()",
        "atlas.grow(",
        "atlas.is_empty()",
        "atlas.allocate(",
        "atlas.deallocate(",
        "atlas.allocated_space()",
        "atlas.free_space()",
        "atlas.dump_svg(",
        "atlas.dump_into_svg(",
        "atlas.clone()",
        "Allocation {",
        "AllocId::deserialize",
        ".serialize()",
        "Size::new",
        "size2(",
        "point2(",
        "`Point`",
        "rectangle.",
        "`AtlasAllocator`",
    ] {
        assert!(left.contains(name), "{name}");
    }
}

#[test]
fn every_theorem_cited_is_there() {
    let cited = include_str!("../src/atlas.rs");
    for (name, file) in [
        ("read_sound_law", "promises/proofs/Files.antt"),
        ("step_sound", "promises/proofs/Sounds.antt"),
        ("stepped", "boundary/proofs/Steps.antt"),
        ("sound_never_1", "promises/proofs/Never.antt"),
        ("space_told", "promises/proofs/Told.antt"),
        ("step_fits", "promises/proofs/KeptFits.antt"),
        ("fits_never_21", "promises/proofs/Never.antt"),
        ("listed_exact", "promises/proofs/History.antt"),
        ("never_1", "promises/proofs/Never.antt"),
        ("panel_never_1", "boundary/proofs/Never.antt"),
    ] {
        let path = format!("{}/../../crates/{file}", env!("CARGO_MANIFEST_DIR"));
        let proofs = std::fs::read_to_string(path).unwrap();
        assert!(cited.contains(&format!("`{name}`")), "{name} is not cited");
        assert!(
            proofs.lines().any(|line| line.trim_start().starts_with(&format!("pub {name} : "))),
            "{name} in {file}"
        );
    }
}
