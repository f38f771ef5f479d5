    #[test]
    #[cfg(unix)]
    fn test_device_groups_keep_their_order() {
        let fixture = TestFixture::new();
        for tool in ["gcc", "cicc"] {
            fixture.mk_bin(tool).unwrap();
        }
        // A fatbin of nine targets: the first cicc writes the module id
        let targets = ["75", "80", "86", "87", "88", "89", "90", "100", "120"];
        let mut dry_run = format!("#$ PATH={}\n", fixture.tempdir.path().display());
        for target in targets {
            let generates = match target {
                "75" => "--gen_module_id_file ",
                _ => "",
            };
            dry_run += &format!(
                "#$ gcc -D__CUDA_ARCH__={target}0 -E -x c++ k.cu -o k.compute_{target}.cpp1.ii\n\
                 #$ cicc -arch compute_{target} {generates}--module_id_file_name k.module_id \
                 k.compute_{target}.cpp1.ii -o k.compute_{target}.ptx\n"
            );
        }
        let creator = new_creator();
        for _ in ["for cicc", "for gcc"] {
            let printed = MockChild::new(exit_status(0), "", &dry_run);
            next_command(&creator, Ok(printed));
        }
        let groups = group_nvcc_subcommands_by_compilation_stage(
            &creator,
            "nvcc".as_ref(),
            &[],
            "-fatbin".as_ref(),
            "/w".as_ref(),
            "/t".as_ref(),
            None,
            &[],
            &NvccHostCompiler::Gcc,
            "k.fatbin".as_ref(),
        );
        let groups = groups.wait().unwrap();
        let compiled: Vec<_> = groups[1..groups.len() - 1]
            .iter()
            .map(|group| group[1].args[1].trim_start_matches("compute_").to_owned())
            .collect();
        assert_eq!(compiled, targets);
    }

    #[test]
    fn test_device_group_that_begins_again_keeps_its_place() {
        let command = |exe: &str| NvccGeneratedSubcommand {
            exe: exe.into(),
            args: vec![],
            cwd: "/t".into(),
            env_vars: vec![],
            cacheable: Cacheable::No,
        };
        let mut groups = DeviceGroups::default();
        groups.insert("one".into(), vec![command("gcc"), command("cicc")]);
        groups.insert("two".into(), vec![command("gcc")]);
        groups.insert("one".into(), vec![]);
        groups.get_mut("two").unwrap().push(command("cicc"));
        assert!(groups.get_mut("three").is_none());
        let lengths: Vec<_> = groups.into_values().map(|group| group.len()).collect();
        assert_eq!(lengths, [0, 2]);
    }

