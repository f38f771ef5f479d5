//! The form of a statement.
//!
//! Names of members are those of the two published formats. What is in `externalParameters` and
//! `internalParameters` is our own, by `BUILD_TYPE`.
use crate::resource::Resource;
use serde::{Deserialize, Serialize};
use std::collections::BTreeMap;

/// What a statement says that it is.
pub const STATEMENT: &str = "https://in-toto.io/Statement/v1";
/// What its predicate is.
pub const PROVENANCE: &str = "https://slsa.dev/provenance/v1";
/// What both kinds of parameters mean.
pub const BUILD_TYPE: &str = "https://zigrunk.invalid/nvcc-call/v1";
/// Who says so.
pub const BUILDER: &str = "https://zigrunk.invalid/builder/v1";

/// A statement about one product of a call.
#[derive(Clone, PartialEq, Debug, Serialize, Deserialize)]
pub struct Statement {
    /// `STATEMENT`.
    #[serde(rename = "_type")]
    pub kind: String,
    /// The product.
    pub subject: Vec<Resource>,
    /// `PROVENANCE`.
    #[serde(rename = "predicateType")]
    pub predicate_type: String,
    /// Where it comes from.
    pub predicate: Provenance,
}

/// Where a product comes from.
#[derive(Clone, PartialEq, Debug, Serialize, Deserialize)]
#[serde(rename_all = "camelCase")]
pub struct Provenance {
    /// What it was made from.
    pub build_definition: Definition,
    /// How it was made.
    pub run_details: Details,
}

/// What a product was made from.
#[derive(Clone, PartialEq, Debug, Serialize, Deserialize)]
#[serde(rename_all = "camelCase")]
pub struct Definition {
    /// `BUILD_TYPE`.
    pub build_type: String,
    /// What the caller asked for.
    pub external_parameters: Asked,
    /// What ran for it.
    pub internal_parameters: Ran,
    /// Each file that was read, tools and their libraries among them.
    pub resolved_dependencies: Vec<Resource>,
}

/// What the caller asked for.
#[derive(Clone, PartialEq, Eq, Debug, Default, Serialize, Deserialize)]
pub struct Asked {
    /// The compiler as it was named, and its words.
    pub words: Vec<String>,
    /// The working directory.
    pub folder: String,
    /// The variables that count: those with words for nvcc, and those that a process asked for.
    pub environment: BTreeMap<String, String>,
}

/// What ran for a call.
#[derive(Clone, PartialEq, Eq, Debug, Default, Serialize, Deserialize)]
pub struct Ran {
    /// Where the files were that commands hand to each other. It is gone.
    pub temporary: String,
    /// The commands, in the plan's order; of a call that isn't split, nvcc's own.
    pub commands: Vec<Command>,
    /// What isn't known of the files that were read, and why.
    pub unknown: Vec<String>,
}

/// A command of a call.
#[derive(Clone, PartialEq, Eq, Debug, Default, Serialize, Deserialize)]
pub struct Command {
    /// The program and its words.
    pub words: Vec<String>,
    /// Where it ran.
    pub folder: String,
    /// Its variables in place of the caller's: values, or null if it lacks one.
    pub environment: BTreeMap<String, Option<String>>,
    /// The program's file.
    pub tool: Resource,
    /// The products that it wrote, by their whole paths.
    pub products: Vec<String>,
}

/// How a product was made.
#[derive(Clone, PartialEq, Debug, Serialize, Deserialize)]
pub struct Details {
    /// Who made it.
    pub builder: Builder,
    /// When.
    pub metadata: Metadata,
}

/// Who made a product.
#[derive(Clone, PartialEq, Eq, Debug, Serialize, Deserialize)]
pub struct Builder {
    /// `BUILDER`.
    pub id: String,
    /// The version of each part.
    pub version: BTreeMap<String, String>,
}

/// When a product was made.
#[derive(Clone, PartialEq, Eq, Debug, Serialize, Deserialize)]
#[serde(rename_all = "camelCase")]
pub struct Metadata {
    /// Tells this call from all others.
    pub invocation_id: String,
    /// When it began, by RFC 3339 in UTC.
    pub started_on: String,
    /// When it ended.
    pub finished_on: String,
}

impl Statement {
    /// The statement in a text.
    /// Errors: why the text isn't one of ours.
    pub fn of_text(text: &[u8]) -> Result<Statement, String> {
        let statement: Statement = serde_json::from_slice(text).map_err(|error| error.to_string())?;
        let kinds =
            [&statement.kind, &statement.predicate_type, &statement.predicate.build_definition.build_type];
        let other =
            kinds.iter().zip([STATEMENT, PROVENANCE, BUILD_TYPE]).find(|(found, wanted)| *found != wanted);
        other.map_or(Ok(()), |(found, wanted)| Err(format!("it is of the type {found}, not {wanted}")))?;
        Ok(statement)
    }
}
