//! The types and declarations of ffi.rs against include/bedside.h: a C program that includes the header declares
//! each function again as ffi.rs does, which a compiler refuses where the two differ, and prints sizes
//! and offsets of the structs. Without a C compiler the test says so and is passed.

use super::*;
use core::mem::{offset_of, size_of};
use std::borrow::ToOwned;
use std::format;
use std::path::PathBuf;
use std::process::Command;
use std::string::{String, ToString};
use std::vec::Vec;
use std::{env, eprintln, fs};

/// C's name of a struct, its size in bytes, and its fields with their offsets.
type Layout = (&'static str, usize, Vec<(&'static str, usize)>);

macro_rules! layout {
    ($name:literal, $of:ty, $($field:ident),+) => {
        ($name, size_of::<$of>(), Vec::from([$((stringify!($field), offset_of!($of, $field))),+]))
    };
}

fn layouts() -> Vec<Layout> {
    Vec::from([
        layout! { "bedside_pair", Pair, p, v, a, b, c, d },
        layout! { "bedside_corrected", Corrected, refusal, pair },
        layout! { "bedside_lapjv_answer", LapjvAnswer, refusal, turns, scans },
        layout! { "bedside_overlap_areas", OverlapAreas, intersection, union_area, ratio },
        layout! { "bedside_matched", Matched, refusal, pairs, turns, scans },
        layout! {
            "bedside_assignment", Assignment, refusal, pairs, unmatched_detections, unmatched_tracks, turns, scans
        },
        layout! {
            "bedside_associate_params", AssociateParams, iou_threshold, lambda_iou, lambda_mhd, lambda_shape,
            use_shape_similarity_correction, has_mahalanobis, has_confidence
        },
        layout! {
            "bedside_settings", Settings, det_thresh, iou_threshold, lambda_iou, lambda_mhd, lambda_shape,
            dlo_boost_coef, max_age, min_hits, use_dlo_boost, use_duo_boost, use_rich_similarity,
            use_shape_similarity_correction, use_soft_boost, use_varying_threshold, cap_confidence
        },
        layout! { "bedside_state", State, count, last_id, frame_count },
        layout! { "bedside_update_answer", UpdateAnswer, refusal, index, state, emitted, turns, scans },
        layout! {
            "bedside_explanation", Explanation, refusal, index, fate, id, score, score_dlo, score_duo, paired_id, iou,
            intersection, union_area
        },
        layout! { "bedside_forgotten", ForgetAnswer, refusal, state },
        layout! { "bedside_mot_answer", MotAnswer, refusal, frame },
    ])
}

/// C's name of a type of ffi.rs.
fn c_type(rust: &str) -> String {
    if let Some(to) = rust.strip_prefix("*const ") {
        return format!("const {} *", c_type(to));
    }
    if let Some(to) = rust.strip_prefix("*mut ") {
        return format!("{} *", c_type(to));
    }
    let c = match rust {
        "f32" => "float",
        "f64" => "double",
        "i32" => "int32_t",
        "u8" => "uint8_t",
        "u32" => "uint32_t",
        "u64" => "uint64_t",
        "usize" => "size_t",
        "" => "void",
        "Pair" => "bedside_pair",
        "Corrected" => "bedside_corrected",
        "LapjvAnswer" => "bedside_lapjv_answer",
        "OverlapAreas" => "bedside_overlap_areas",
        "Matched" => "bedside_matched",
        "Assignment" => "bedside_assignment",
        "AssociateParams" => "bedside_associate_params",
        "Settings" => "bedside_settings",
        "State" => "bedside_state",
        "UpdateAnswer" => "bedside_update_answer",
        "Explanation" => "bedside_explanation",
        "ForgetAnswer" => "bedside_forgotten",
        "MotAnswer" => "bedside_mot_answer",
        other => panic!("{other} has no name in C here"),
    };
    c.to_owned()
}

/// A declaration of the extern block, from the name on, in C.
fn c_declaration(rust: &str) -> String {
    let (name, rest) = rust.split_once('(').expect("a declaration has parameters");
    let (parameters, result) = rest.split_once(')').expect("its parameters end");
    let types: Vec<String> = parameters
        .split(',')
        .filter_map(|parameter| parameter.split_once(':'))
        .map(|(_, of)| c_type(of.trim()))
        .collect();
    let result = c_type(result.trim().trim_start_matches("->").trim());
    format!("{result} {name}({});\n", types.join(", "))
}

fn declarations() -> Vec<String> {
    let (_, rest) =
        include_str!("../ffi.rs").split_once("\nunsafe extern \"C\" {").expect("the extern block");
    let (block, _) = rest.split_once("\n}").expect("the extern block ends");
    block.split(';').filter_map(|part| part.split_once("fn ")).map(|(_, rust)| c_declaration(rust)).collect()
}

/// A program that prints, for each struct, its name, its size and its fields' offsets.
fn c_program() -> String {
    let mut text = String::from("#include \"bedside.h\"\n#include <stddef.h>\n#include <stdio.h>\n");
    text.extend(declarations());
    text += "int main(void)\n{\n";
    for (name, _, fields) in layouts() {
        text += &format!("    printf(\"{name} %zu\", sizeof({name}));\n");
        for (field, _) in fields {
            text += &format!("    printf(\" {field} %zu\", offsetof({name}, {field}));\n");
        }
        text += "    putchar('\\n');\n";
    }
    text + "    return 0;\n}\n"
}

fn expected() -> String {
    let line = |(name, size, fields): Layout| {
        let offsets: String = fields.iter().map(|(field, at)| format!(" {field} {at}")).collect();
        format!("{name} {size}{offsets}\n")
    };
    layouts().into_iter().map(line).collect()
}

#[test]
fn the_header_says_the_same() {
    let compiler = env::var("CC").unwrap_or_else(|_| "cc".to_string());
    if Command::new(&compiler).arg("--version").output().is_err() {
        eprintln!("no C compiler {compiler}: the header is not compared");
        return;
    }
    assert!(declarations().len() >= 25);
    let place = PathBuf::from(env!("OUT_DIR"));
    let (source, program) = (place.join("header.c"), place.join("header"));
    fs::write(&source, c_program()).expect("the program is written");
    let built = Command::new(&compiler)
        .args(["-std=c11", "-I"])
        .arg(concat!(env!("CARGO_MANIFEST_DIR"), "/../include"))
        .arg(&source)
        .arg("-o")
        .arg(&program)
        .output()
        .expect("the compiler runs");
    assert!(built.status.success(), "{}", String::from_utf8_lossy(&built.stderr));
    let printed = Command::new(&program).output().expect("the program runs").stdout;
    assert_eq!(String::from_utf8_lossy(&printed), expected());
}

/// The crate has the number of the header that it was written for.
#[test]
fn the_version_is_the_headers() {
    let header = include_str!("../../../include/bedside.h");
    let define = "#define BEDSIDE_VERSION_STRING ";
    for number in header.lines().filter_map(|line| line.strip_prefix(define)) {
        assert_eq!(number.trim_matches('"'), env!("CARGO_PKG_VERSION"));
    }
}
