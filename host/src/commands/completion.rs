use crate::args::Given;
use crate::command::Command;
use crate::commands::COMMANDS;
use crate::failure::Failure;
use crate::streams::{Ended, Streams};

pub static COMMAND: Command = Command {
    name: "completion",
    brief: "print the completion for bash",
    names: &[],
    options: &[],
    text: "\
Prints a completion for bash, made from the same table as the help. It is installed by 'make install', or taken for one \
shell by:

    eval \"$(malxuqeed completion)\"",
    run,
};

fn run(_: &Given, streams: &mut Streams) -> Result<Ended, Failure> {
    streams.put(script().as_bytes())?;
    Ok(Ended::Well)
}

/// Commands first, then a command's options behind a dash, the values that an option names, else files.
pub fn script() -> String {
    let names: Vec<&str> = COMMANDS.iter().map(|command| command.name).collect();
    let mut options = String::new();
    let mut values = String::new();
    for command in &COMMANDS {
        let own: Vec<&str> = command.options.iter().map(|option| option.name).collect();
        options += &format!("        {}) words='{} --help' ;;\n", command.name, own.join(" "));
        for option in command.options {
            // values in small letters are words to choose from; the others stand for something
            let words: Vec<&str> =
                option.value.split('|').filter(|word| word.starts_with(|c: char| c.is_lowercase())).collect();
            if !words.is_empty() {
                values += &format!("        '{} {}') words='{}' ;;\n", command.name, option.name, words.join(" "));
            }
        }
    }
    let names = names.join(" ");
    format!(
        "# bash completion for malxuqeed\n\
         _malxuqeed() {{\n    \
             local current=${{COMP_WORDS[COMP_CWORD]}} words=\n    \
             COMPREPLY=()\n    \
             if [ \"$COMP_CWORD\" = 1 ]; then\n        \
                 mapfile -t COMPREPLY < <(compgen -W '{names} --help --version' -- \"$current\")\n        \
                 return\n    \
             fi\n    \
             case \"${{COMP_WORDS[1]}} ${{COMP_WORDS[COMP_CWORD - 1]}}\" in\n\
         {values}        \
                 'help help') words='{names}' ;;\n    \
             esac\n    \
             if [ -z \"$words\" ] && [[ $current == -* ]]; then\n        \
                 case ${{COMP_WORDS[1]}} in\n\
         {options}        \
                 esac\n    \
             fi\n    \
             if [ -n \"$words\" ]; then\n        \
                 mapfile -t COMPREPLY < <(compgen -W \"$words\" -- \"$current\")\n    \
             else\n        \
                 mapfile -t COMPREPLY < <(compgen -f -- \"$current\")\n    \
             fi\n\
         }}\n\
         complete -o filenames -F _malxuqeed malxuqeed\n"
    )
}
