    #[test]
    fn test_device_groups_wait_for_what_they_read() {
        let command = |exe: &str, words: String| NvccGeneratedSubcommand {
            exe: exe.into(),
            args: words.split(' ').map(str::to_owned).collect(),
            cwd: "/t".into(),
            env_vars: vec![],
            cacheable: Cacheable::Yes,
        };
        let group = |target: &str, id: &str| {
            let source = format!("x_{target}.cpp1.ii");
            vec![
                command("gcc", format!("-E k.cu -o /t/{source}")),
                command("cicc", format!("{id} {source} -o k.{target}.ptx")),
                command("ptxas", format!("k.{target}.ptx -o k.{target}.cubin")),
            ]
        };
        let read = "--module_id_file_name k.module_id";
        let written = &format!("--gen_module_id_file {read}");
        let own = "--gen_module_id_file --module_id_file_name";
        let (one, other) = (&format!("{own} 1 2"), &format!("{own} 2 1"));
        // Each group with its target, and the chunks
        let cases: [(&[(&str, &str)], usize, &[&[&str]]); 8] = [
            (&[], 2, &[]),
            // A fatbin of two targets, and of four; two or three at once
            (&[("75", written), ("80", read)], 1, &[&["75"], &["80"]]),
            (&[("75", written), ("80", read)], 2, &[&["75"], &["80"]]),
            (
                &[("75", written), ("80", read), ("90", read), ("86", read)],
                3,
                &[&["75"], &["80", "90", "86"]],
            ),
            // In any order: the groups are in a map
            (
                &[("80", read), ("86", read), ("75", written)],
                2,
                &[&["75"], &["80", "86"]],
            ),
            // An object: cudafe++ wrote the module id before
            (
                &[("75", read), ("80", read), ("86", read)],
                2,
                &[&["75", "80"], &["86"]],
            ),
            // Two that write one file, and two of which each reads what the other writes
            (&[("75", written), ("80", written)], 2, &[&["75", "80"]]),
            (&[("80", one), ("75", other)], 2, &[&["80"], &["75"]]),
        ];
        for (given, most, wanted) in cases {
            let groups: Vec<_> = given.iter().map(|(target, id)| group(target, id)).collect();
            let chunks = chunks_by_needs(&groups, most);
            let targets: Vec<Vec<_>> = chunks
                .iter()
                .map(|chunk| chunk.iter().map(|group| group[2].args[0].clone()).collect())
                .collect();
            let wanted: Vec<Vec<_>> = wanted
                .iter()
                .map(|chunk| chunk.iter().map(|it| format!("k.{it}.ptx")).collect())
                .collect();
            assert_eq!(targets, wanted, "{given:?}, {most} at once");
        }
    }

