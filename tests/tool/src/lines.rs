//! What words ask for.
use pathspec_options::{ListOptions, Options, Task};
use std::alloc::{AllocError, Global};
use std::test::Fail;

/// Adds a list of texts, if it has any.
fn add(line: &mut String, name: &str, texts: &[&str]) -> Result<(), AllocError> {
    for text in texts {
        line.push_str(" ")?;
        line.push_str(name)?;
        line.push_str("=")?;
        line.push_str(text)?;
    }
    Ok(())
}

/// Adds the names of the flags that are set.
fn add_flags(line: &mut String, flags: &[(&str, bool)]) -> Result<(), AllocError> {
    for (name, is_set) in flags {
        if *is_set {
            line.push_str(" ")?;
            line.push_str(name)?;
        }
    }
    Ok(())
}

/// Adds a command and its own options.
fn add_task(line: &mut String, task: &Task<'_>) -> Result<(), AllocError> {
    match task {
        Task::Filter(asked) => {
            line.push_str("filter")?;
            let flags = [
                ("null", asked.null),
                ("verbatim", asked.verbatim),
                ("invert", asked.invert),
                ("count", asked.count),
            ];
            add_flags(line, flags.as_slice())?;
            let more = [
                ("quiet", asked.quiet),
                ("error-unmatch", asked.error_unmatch),
                ("stats", asked.stats),
            ];
            add_flags(line, more.as_slice())
        }
        Task::List(asked) => add_list(line, asked),
        Task::Explain(asked) => {
            line.push_str("explain")?;
            add_flags(
                line,
                [
                    ("null", asked.null),
                    ("all", asked.all),
                    ("json", asked.json),
                ]
                .as_slice(),
            )?;
            add(line, "path", asked.paths.as_slice())
        }
        Task::Show => line.push_str("show"),
    }
}

/// Adds `list` and its own options.
fn add_list(line: &mut String, asked: &ListOptions<'_>) -> Result<(), AllocError> {
    line.push_str("list")?;
    let flags = [
        ("null", asked.null),
        ("dirs", asked.dirs),
        ("nested", asked.nested),
        ("unsorted", asked.unsorted),
    ];
    add_flags(line, flags.as_slice())?;
    let more = [
        ("count", asked.count),
        ("quiet", asked.quiet),
        ("error-unmatch", asked.error_unmatch),
        ("stats", asked.stats),
    ];
    add_flags(line, more.as_slice())?;
    add(line, "change", [asked.change].as_slice())?;
    add(line, "directory", [asked.directory].as_slice())
}

/// Adds the specs and what they are read with.
fn add_specs(line: &mut String, options: &Options<'_>) -> Result<(), AllocError> {
    let specs = &options.specs;
    let modes = specs.modes;
    let flags = [
        ("icase", modes.icase),
        ("glob", modes.glob),
        ("noglob", modes.noglob),
        ("literal", modes.literal),
    ];
    add_flags(line, flags.as_slice())?;
    add(line, "prefix", [specs.prefix].as_slice())?;
    add(line, "root", [specs.root].as_slice())?;
    for (path, list) in &specs.attributes {
        add(line, "attr", [*path, *list].as_slice())?;
    }
    add(line, "attr-from", specs.attribute_files.as_slice())?;
    if let Some(directory) = specs.attribute_directory {
        add(line, "attributes", [directory].as_slice())?;
    }
    add_flags(line, [("global", specs.global_attributes)].as_slice())?;
    add(line, "from", specs.files.as_slice())?;
    add(line, "spec", specs.words.as_slice())
}

/// What a command line asks for, in a line; or its exit status and the first line of its message.
fn told(alloc: Global, words: &[&str]) -> Result<String, AllocError> {
    let mut line = String::new(alloc);
    match Options::from_words(alloc, words, "1 (2)") {
        Ok(options) => {
            add_task(&mut line, &options.task)?;
            add_specs(&mut line, &options)?;
        }
        Err(error) => {
            let code = error.exit_code();
            let text = format!(in alloc; "{code} {error}")?;
            let (first, _) = text.as_str().split_once('\n').unwrap_or(("", ""));
            line.push_str(first)?;
        }
    }
    Ok(line)
}

/// Words behind the program's name, and what they ask for.
struct Row(&'static [&'static str], &'static str);

const ROWS: &[Row] = &[
    Row(&["pathspec", "filter"], "filter prefix= root="),
    Row(
        &["pathspec", "explain", "a", "--attributes", "."],
        "explain prefix= root= attributes=. spec=a",
    ),
    Row(
        &["pathspec", "filter", "--attributes=d", "--global"],
        "filter prefix= root= attributes=d global",
    ),
    Row(
        &["pathspec", "filter", ":!src", "-z", "--prefix=src", "b"],
        "filter null prefix=src root= spec=:!src spec=b",
    ),
    Row(
        &["pathspec", "filter", "-vc", "a", "--", "-z"],
        "filter invert count prefix= root= spec=a spec=-z",
    ),
    Row(
        &[
            "pathspec",
            "filter",
            "--specs-from",
            "x",
            "--specs-from",
            "-",
            "-",
        ],
        "filter prefix= root= from=x from=- spec=-",
    ),
    Row(
        &[
            "pathspec",
            "filter",
            "--attr",
            "a/b",
            "-text x=1",
            "--attr",
            "c",
            "!y",
            "d",
        ],
        "filter prefix= root= attr=a/b attr=-text x=1 attr=c attr=!y spec=d",
    ),
    Row(
        &[
            "pathspec",
            "filter",
            "-q",
            "-q",
            "--root",
            "/r",
            "--root=/s",
        ],
        "filter quiet prefix= root=/s",
    ),
    Row(
        &[
            "pathspec",
            "filter",
            "--error-unmatch",
            "--stats",
            "--verbatim",
            "--icase",
            "--literal",
            "--attr-from",
            "f",
        ],
        "filter verbatim error-unmatch stats icase literal prefix= root= attr-from=f",
    ),
    Row(
        &[
            "pathspec",
            "explain",
            "a",
            "--path",
            "x/",
            "--all",
            "--path=-y",
            "--json",
            "b",
        ],
        "explain all json path=x/ path=-y prefix= root= spec=a spec=b",
    ),
    Row(
        &["pathspec", "show", ":(icase)readme*"],
        "show prefix= root= spec=:(icase)readme*",
    ),
    Row(
        &["pathspec", "list"],
        "list change= directory= prefix= root=",
    ),
    Row(
        &["pathspec", "list", "src", "-z", "--", ":!a", "-c"],
        "list null change= directory=src prefix= root= spec=:!a spec=-c",
    ),
    Row(
        &[
            "pathspec",
            "list",
            "-C",
            "a/b",
            "--dirs",
            "--nested",
            "--unsorted",
            "--glob",
        ],
        "list dirs nested unsorted change=a/b directory= glob prefix= root=",
    ),
    Row(
        &[
            "pathspec",
            "list",
            "-qc",
            "--error-unmatch",
            "--stats",
            "--",
            "a",
            "--",
            "b",
        ],
        "list count quiet error-unmatch stats change= directory= prefix= root= spec=a spec=-- spec=b",
    ),
    // names that help leaves out
    Row(
        &["pathspec", "filter", "-0i", "a"],
        "filter null icase prefix= root= spec=a",
    ),
    Row(
        &["pathspec", "show", "--specs-from=f", "-i"],
        "show icase prefix= root= from=f",
    ),
    // mistakes, and what is asked for
    Row(
        &["pathspec", "list", "a", "b"],
        "2 error: unexpected argument 'b' found",
    ),
    Row(
        &["pathspec", "list", "--error-unmatch", "--attributes", "."],
        "list error-unmatch change= directory= prefix= root= attributes=.",
    ),
    Row(
        &["pathspec", "filter", "--glob", "--noglob"],
        "2 error: the argument '--glob' cannot be used with '--noglob'",
    ),
    Row(
        &["pathspec", "filter", "--global"],
        "2 error: the following required arguments were not provided:",
    ),
    Row(
        &["pathspec", "filter", "--attr", "a"],
        "2 error: 2 values required for '--attr <PATH> <LIST>' but 1 was provided",
    ),
    Row(
        &["pathspec", "explian"],
        "2 error: unrecognized subcommand 'explian'",
    ),
    Row(
        &["pathspec"],
        "2 error: 'pathspec' requires a subcommand but one was not provided",
    ),
    Row(
        &["pathspec", "show"],
        "2 error: the following required arguments were not provided:",
    ),
    Row(
        &["pathspec", "help"],
        "2 error: unrecognized subcommand 'help'",
    ),
    Row(&["pathspec", "-V"], "0 pathspec 1 (2)"),
    Row(&["pathspec", "--version"], "0 pathspec 1 (2)"),
    Row(&["pathspec", "filter", "--help"], "0 Examples:"),
];

#[test]
fn words_ask_for_what_they_say(rt: HostRuntime) -> Result<(), Fail> {
    for Row(words, line) in ROWS {
        assert_eq!(rt; told(rt.alloc(), words)?.as_str(), *line);
    }
    Ok(())
}

#[test]
fn an_option_of_other_programs_gets_a_tip(rt: HostRuntime) -> Result<(), Fail> {
    for word in ["--exclude", "--exclude=a"] {
        let words = ["pathspec", "filter", word];
        let Err(error) = Options::from_words(rt.alloc(), words.as_slice(), "1") else {
            return Err(Fail::from(AllocError));
        };
        let text = format!(in rt.alloc(); "{error}")?;
        let tip = "error: unexpected argument '--exclude' found\n\n  tip: ':!PATTERN' is an exclude\n\n";
        assert!(rt; text.as_str().starts_with(tip), "{text}");
    }
    Ok(())
}

#[test]
fn a_spec_beside_the_directory_of_list_gets_a_tip(rt: HostRuntime) -> Result<(), Fail> {
    let words = ["pathspec", "list", "src", "*.c"];
    let Err(error) = Options::from_words(rt.alloc(), words.as_slice(), "1") else {
        return Err(Fail::from(AllocError));
    };
    let text = format!(in rt.alloc(); "{error}")?;
    let tip = "error: unexpected argument '*.c' found\n\n  tip: specs stand behind `--`\n\n";
    assert!(rt; text.as_str().starts_with(tip), "{text}");
    Ok(())
}

#[test]
fn help_fits_in_80_columns(rt: HostRuntime) -> Result<(), Fail> {
    for name in ["filter", "list", "explain", "show"] {
        let words = ["pathspec", name, "--help"];
        let Err(error) = Options::from_words(rt.alloc(), words.as_slice(), "1") else {
            return Err(Fail::from(AllocError));
        };
        let text = format!(in rt.alloc(); "{error}")?;
        for line in text.as_str().lines() {
            assert!(rt; line.len() <= 80, "{name}: {line}");
        }
    }
    Ok(())
}
