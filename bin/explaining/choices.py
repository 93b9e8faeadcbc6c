"""What `run` tells of the run of an UNSAFE: its path, or where there is none the step in which each choice is taken."""

import re

MOST = 64


def kept_words(options):
    """Of the words of `verify` those that `run` wants too."""
    return [word for entry in options if entry[0] == '--malloc-null' for word in entry]


def path_by_run(program, file, options, choices):
    """The lines of the path, where `run` prints it though `verify` did not."""
    if '--path' not in program.options('run'):
        return None
    answer = program.call(
        ['run', *(['--choices', choices] if choices else []), *kept_words(options), '--path', '--', file]
    )
    found = re.fullmatch(r'FAULT\n(?:.*\n){3}path\n((?:.*\n)*)end\n', answer.out)
    return found[1].splitlines() if found else None


def steps_of_choices(program, file, options, choices):
    """The step of each of the first choices: a run that is given fewer starves there."""
    found = []
    for given in range(min(len(choices), MOST)):
        some = ['--choices', choices[:given]] if given else []
        answer = program.call(['run', *some, *kept_words(options), '--', file], 60)
        starved = re.fullmatch(r'STARVED\nstep (\d+)\n', answer.out)
        if not starved:
            break
        found.append(int(starved[1]))
    return found


def words_of_choices(program, file, options, choices):
    """A sentence on these steps, or nothing where there are none."""
    found = steps_of_choices(program, file, options, choices)
    if not found:
        return []
    told = ', '.join(f'{choice} in step {step}' for choice, step in zip(choices, found))
    return [f'the choices are taken so: {told}' + (', ..' if len(found) < len(choices) else '')]
