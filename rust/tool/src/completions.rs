//! Completions for bash: commands, their options, files.

use crate::args::{COMMON, Command};
use crate::commands::COMMANDS;

pub fn bash() -> String {
    let names: Vec<&str> = COMMANDS.iter().map(|command| command.name).collect();
    let mut script =
        "# Completions of renju for bash, written by renju --completions bash.\n".to_owned();
    script += "_renju() {\n";
    script += "    local word=${COMP_WORDS[COMP_CWORD]} words=\n";
    script += "    COMPREPLY=()\n";
    script += "    if [ \"$COMP_CWORD\" = 1 ]; then\n";
    script += &format!(
        "        words='{} help --help --version --man --completions'\n",
        names.join(" ")
    );
    script += "    elif [[ $word == -* ]]; then\n";
    script += "        case ${COMP_WORDS[1]} in\n";
    for command in COMMANDS {
        script += &format!(
            "        {}) words='{}' ;;\n",
            command.name,
            options(command)
        );
    }
    script += "        esac\n";
    script += "    else\n";
    script += "        case ${COMP_WORDS[1]} in\n";
    script += &format!("        help) words='{}' ;;\n", names.join(" "));
    script += "        --completions) words=bash ;;\n";
    script += "        *) mapfile -t COMPREPLY < <(compgen -f -- \"$word\") ;;\n";
    script += "        esac\n";
    script += "    fi\n";
    script +=
        "    [ -z \"$words\" ] || mapfile -t COMPREPLY < <(compgen -W \"$words\" -- \"$word\")\n";
    script += "}\ncomplete -o filenames -F _renju renju\n";
    script
}

fn options(command: &Command) -> String {
    let options = command.options.iter().chain(COMMON);
    options
        .map(|option| option.name)
        .collect::<Vec<_>>()
        .join(" ")
}
