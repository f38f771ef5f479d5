//! A plan as a compilation database, for clang's tools.
use crate::json::push_text;
use crate::memory::{OutOfMemory, listed, push};
use crate::plan::{Command, Plan, Stage};

/// The macro that says a preprocessor's target.
const TARGET: &str = "-D__CUDA_ARCH__=";

/// What clang has in place of a word, in two parts, given whether the word follows `-x`. Nothing takes the
/// place of a macro of nvcc's own: clang defines those that are true of it, and no header should take it for
/// nvcc.
fn clang_word(word: &str, after_x: bool) -> Option<[&str; 2]> {
    if let Some(target) = word.strip_prefix(TARGET) {
        return Some(["--cuda-gpu-arch=sm_", target.strip_suffix('0').unwrap_or(target)]);
    }
    let of_clang = match word {
        "-E" => "-fsyntax-only",
        "-D__CUDACC_RDC__" => "-fgpu-rdc",
        "c++" if after_x => "cuda",
        _ if word.starts_with("-D__CUDA") || word.starts_with("-D__NV") => return None,
        _ => word,
    };
    Some([of_clang, ""])
}

/// The line of a command, each word in two parts: a step that preprocesses CUDA, for which nvcc has its host
/// compiler define a macro, has the words of clang's own CUDA mode, any other has its own.
fn line<'a>(program: &'a str, words: &[&'a str]) -> Result<Vec<[&'a str; 2]>, OutOfMemory> {
    if !words.contains(&"-D__CUDACC__") {
        return listed([program].iter().chain(words).map(|&word| Ok([word, ""])));
    }
    let is_for_device = words.iter().any(|word| word.starts_with(TARGET));
    let half = if is_for_device { "--cuda-device-only" } else { "--cuda-host-only" };
    let befores = [""].iter().chain(words);
    let of_clang = words.iter().zip(befores).filter_map(|(word, before)| clang_word(word, *before == "-x"));
    listed([["clang++", ""], [half, ""]].into_iter().chain(of_clang).map(Ok))
}

/// Adds the entries of a command: one for each source that it compiles. A command whose record has all files
/// that it reads compiles none.
fn push_entries(text: &mut String, command: Command<'_>) -> Result<(), OutOfMemory> {
    if command.missing().is_none() {
        return Ok(());
    }
    let words: Vec<&str> = listed(command.arguments().map(Ok::<_, OutOfMemory>))?;
    for source in command.reads() {
        push(text, if text.len() > 1 { "," } else { "" })?;
        push(text, "{\"arguments\":[")?;
        for (place, word) in line(command.program(), &words)?.into_iter().enumerate() {
            push(text, if place > 0 { "," } else { "" })?;
            push_text(text, &word)?;
        }
        push(text, "],\"directory\":")?;
        push_text(text, &[command.cwd()])?;
        push(text, ",\"file\":")?;
        push_text(text, &[source])?;
        push(text, "}")?;
    }
    Ok(())
}

/// The commands of a plan that compile its source: the host compiler's of all groups but the last, which
/// compiles only files that other commands have written.
pub(crate) fn text(plan: &Plan) -> Result<String, OutOfMemory> {
    let mut text = String::new();
    push(&mut text, "[")?;
    for group in plan.groups().filter(|group| group.stage() != Stage::Final) {
        for command in group.commands() {
            push_entries(&mut text, command)?;
        }
    }
    push(&mut text, "]\n")?;
    Ok(text)
}

#[cfg(test)]
mod tests {
    use super::*;

    #[test]
    fn steps_that_preprocess_have_words_for_clang() {
        let cases = [
            (
                "-D__CUDA_ARCH_LIST__=800 -E -x c++ -D__CUDACC__ -D__NVCC__ -I/w/c++ -D X=1 -include cuda_runtime.h k.cu -o k.cpp4.ii",
                "clang++ --cuda-host-only -fsyntax-only -x cuda -I/w/c++ -D X=1 -include cuda_runtime.h k.cu -o k.cpp4.ii",
            ),
            (
                "-D__CUDA_ARCH__=1000 -E -x c++ -D__CUDACC__ -D__CUDACC_RDC__ -I c++ k.cu",
                "clang++ --cuda-device-only --cuda-gpu-arch=sm_100 -fsyntax-only -x cuda -fgpu-rdc -I c++ k.cu",
            ),
            ("-D__CUDA_ARCH__=75 -D__CUDACC__ k.cu", "clang++ --cuda-device-only --cuda-gpu-arch=sm_75 k.cu"),
            ("-D__CUDA_ARCH__=800 -E -D__NVCC__ k.cu", "/b/gcc -D__CUDA_ARCH__=800 -E -D__NVCC__ k.cu"),
        ];
        for (words, wanted) in cases {
            let words: Vec<&str> = words.split(' ').collect();
            let line: Vec<String> =
                line("/b/gcc", &words).unwrap().iter().map(|parts| parts.concat()).collect();
            assert_eq!(line.join(" "), wanted);
        }
    }
}
