/// The files that a command writes, as far as device groups share them.
fn files_written(cmd: &NvccGeneratedSubcommand) -> impl Iterator<Item = PathBuf> + '_ {
    let generates_id = cmd.args.iter().any(|arg| arg == "--gen_module_id_file");
    let writes =
        move |option: &str| option == "-o" || (generates_id && option == "--module_id_file_name");
    cmd.args
        .windows(2)
        .filter(move |pair| writes(&pair[0]))
        .map(|pair| cmd.cwd.join(&pair[1]))
}

/// Whether a command of a group reads a file that another group writes.
fn group_needs(group: &[NvccGeneratedSubcommand], other: &[NvccGeneratedSubcommand]) -> bool {
    let own: Vec<_> = group.iter().flat_map(files_written).collect();
    other
        .iter()
        .flat_map(files_written)
        .filter(|file| !own.contains(file))
        .any(|file| {
            let mut words = group
                .iter()
                .flat_map(|cmd| cmd.args.iter().map(|arg| cmd.cwd.join(arg)));
            words.any(|word| word == file)
        })
}

/// Cuts groups into chunks of at most `most` groups that may run at once. Each group is in a later
/// chunk than those that write what it reads.
fn chunks_by_needs(
    groups: &[Vec<NvccGeneratedSubcommand>],
    most: usize,
) -> Vec<Vec<&Vec<NvccGeneratedSubcommand>>> {
    let mut left: Vec<_> = groups.iter().collect();
    let mut chunks = vec![];
    while !left.is_empty() {
        let waits = |group: &[_]| left.iter().any(|other| group_needs(group, other));
        let mut chunk: Vec<_> = left
            .iter()
            .copied()
            .filter(|group| !waits(group))
            .take(most)
            .collect();
        if chunk.is_empty() {
            // Groups that need each other run in their order
            chunk.push(left[0]);
        }
        left.retain(|group| !chunk.iter().any(|taken| std::ptr::eq(*taken, *group)));
        chunks.push(chunk);
    }
    chunks
}

