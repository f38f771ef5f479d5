//! Calls under a root that any checkout may take.
//!
//! Equal keys and equal contents make equal products there if each path below the checkout's folder comes from
//! a word of the line, a list of folders or the working directory, which keys have with a mark: not from what
//! a file says. So no file that was read may have the folder's path, nor a product or a message.
use super::Session;
use super::whole::{Finished, Written};
use crate::calls::{self, Answer, Product, Rooted};
use crate::checkout::Checkout;
use crate::digest::Digest;
use crate::manifest::{Manifest, Seen, is_program, real_place};
use crate::store::Store;
use machine::streams::content_of;
use std::collections::BTreeSet;
use std::fs;
use std::path::{Path, PathBuf};

/// What the store gets of such a call.
pub(super) struct Shared {
    key: Digest,
    manifest: Manifest,
    answer: Answer,
}

impl Shared {
    /// Keeps it, if the store can be written.
    pub(super) fn keep(&self, store: &Store) {
        calls::keep_shared(store, &self.key, &self.manifest, &self.answer);
    }
}

/// A call, and the checkout in which it was made.
struct Sharing<'a> {
    call: &'a Finished<'a>,
    checkout: &'a Checkout,
    rooted: &'a Rooted,
    tmp: &'a Path,
}

impl Sharing<'_> {
    /// Whether a file that was read may lead to the checkout's folder.
    fn leads_there(&self, seen: &Seen) -> bool {
        let path = self.call.cwd().join(&seen.path);
        if is_program(&path) {
            return self.checkout.path(&seen.path).is_none_or(|path| Checkout::is_inside(&path));
        }
        content_of(&path).map_or(true, |text| self.checkout.is_named_in(&text))
    }

    /// The paths by which processes came below the folder, as in any checkout.
    fn ways(&self) -> Option<BTreeSet<PathBuf>> {
        let words = self.rooted.words.iter().map(String::as_str).chain(self.rooted.lists());
        let words: Vec<&Path> = words.filter_map(Checkout::path_in).collect();
        let is_file = |path: &&&Path| self.checkout.own(path).is_some_and(|own| own.is_file());
        let beside = words.iter().filter(is_file).filter_map(|path| path.parent());
        let places = self.checkout.places()?;
        Some(words.iter().copied().chain(beside).map(Path::to_owned).chain(places).collect())
    }

    /// Whether the preprocessors have read each file that their line markers name: not so if a source says by
    /// `#line` that it's another, which is no path that may be looked at.
    fn has_read(&self, written: &Written, manifest: &Manifest) -> bool {
        let files: BTreeSet<&Path> = manifest.files.iter().map(|seen| seen.path.as_path()).collect();
        // (debuggers hear where the preprocessor runs)
        let cwd = self.call.cwd();
        let is_cwd = |path: &Path| path == cwd || fs::canonicalize(cwd).is_ok_and(|real| path == real);
        let is_ours = |path: &Path| path.starts_with(&self.checkout.name) || path.starts_with(self.tmp);
        let is_known = |path: &PathBuf| files.contains(path.as_path()) || is_ours(path) || is_cwd(path);
        written.named.iter().all(is_known)
    }

    /// The manifest with where the sources really are: a module id has that.
    fn with_sources(&self, manifest: &Manifest) -> Option<Manifest> {
        let mut manifest = manifest.clone();
        let cwd = self.call.cwd();
        for command in self.call.commands.iter().filter(|command| command.preprocesses) {
            for source in command.reads.iter().map(PathBuf::from) {
                let real = real_place(&source, cwd)?;
                if !manifest.places.iter().any(|(path, _)| *path == source) {
                    manifest.places.push((source, real));
                }
            }
        }
        Some(manifest)
    }

    /// What the call has made and said, as in any checkout.
    fn answer(&self, answer: &Answer) -> Option<Answer> {
        let said = self.call.rooted_said.clone()?;
        let texts =
            answer.products.iter().map(|product| &product.text).chain(said.iter().map(|(_, text)| text));
        if texts.into_iter().any(|text| self.checkout.is_named_in(text)) {
            return None;
        }
        let rooted =
            |product: &Product| Some(Product { path: self.checkout.path(&product.path)?, ..product.clone() });
        let products = answer.products.iter().map(rooted).collect::<Option<_>>()?;
        let mut rule = answer.rule.as_ref().map_or(Some(None), |rule| rooted(rule).map(Some))?;
        if let Some(rule) = &mut rule {
            rule.text = self.checkout.rule(&rule.text)?;
        }
        Some(Answer { products, rule, said, terminal: answer.terminal.clone() })
    }
}

/// Whether each path below the folder is on one of these ways.
fn are_on(manifest: &Manifest, ways: &BTreeSet<PathBuf>) -> bool {
    let is_on = |path: &Path| ways.iter().any(|way| path.starts_with(way) || way.starts_with(path));
    manifest.paths().all(|path| !Checkout::is_inside(path) || is_on(path))
}

impl Session<'_> {
    /// What any checkout may take of a call. `None` if that isn't sure.
    pub(super) fn shared(
        &self,
        call: &Finished<'_>,
        nvcc: &Path,
        written: &Written,
        manifest: &Manifest,
        answer: &Answer,
    ) -> Option<Shared> {
        let checkout = self.beginning.checkout.as_ref()?;
        let rooted = Rooted::of(checkout, call.line, nvcc)?;
        let key = rooted.key(checkout, nvcc)?;
        let sharing = Sharing { call, checkout, rooted: &rooted, tmp: Path::new(self.tmp) };
        let names_folder = manifest.has_value(|value| checkout.value(value).is_none());
        if names_folder
            || !sharing.has_read(written, manifest)
            || manifest.files.iter().any(|seen| sharing.leads_there(seen))
        {
            return None;
        }
        let own = sharing.with_sources(manifest)?;
        let manifest = own.kept_in(Some(checkout))?;
        let answer = sharing.answer(answer)?;
        // (what was looked at is what was read)
        let is_same = own.now(call.cwd(), &[]).is_ok_and(|now| now.digest(&key) == own.digest(&key));
        (is_same && are_on(&manifest, &sharing.ways()?)).then_some(Shared { key, manifest, answer })
    }
}
