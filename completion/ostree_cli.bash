# bash completion of ostree_cli and ostree_native: commands, options, and the refs of the current folder.

# The refs are looked up as files. The program itself would check the whole repository first, and meanwhile keep any other run out.
# A name that begins with `-` stands only behind `--`, and isn't offered.
_ostree_cli_refs() {
	(cd ostree/repo/refs/heads 2>/dev/null && find . -type f ! -name '.*' 2>/dev/null | sed -n 's,^\./\([^-]\),\1,p')
}

# Says of the words before the cursor: the command, how many fields there are, whether an option waits for its value, and which options may
# follow. The shell cuts words at `=`.
_ostree_cli_before() {
	local word
	for word in "${COMP_WORDS[@]:1:COMP_CWORD-1}"; do
		if [[ $waits ]]; then
			[[ $word == = ]] || waits=''
		elif [[ $options && $word == -- ]]; then
			options=''
		elif [[ $options && ($word == --helpers || $word == --schedule) ]]; then
			waits=yes
		else
			((fields++)) || command=$word
		fi
	done
}

_ostree_cli() {
	local current=${COMP_WORDS[COMP_CWORD]} command='' fields=0 waits='' options='--helpers --schedule' words=''
	_ostree_cli_before
	if [[ $options && $current == -* ]]; then
		words=$options
		[[ $COMP_CWORD != 1 ]] || words+=' --help --version'
	else
		case $fields,$command in
		0,) words='init run refs status rev-parse log ls cat checkout reset drop prune cleanup' ;;
		1,--help) [[ ${COMP_WORDS[0]} == *ostree_native ]] || words='init run commit refs status rev-parse log ls cat checkout reset drop prune cleanup' ;;
		1,rev-parse | 1,log | 1,ls | 1,cat | 1,checkout | 1,reset | 1,drop) words=$(_ostree_cli_refs) ;;
		esac
	fi
	[[ ! $waits ]] || words=''
	mapfile -t COMPREPLY < <(compgen -W "$words" -- "$current")
}

complete -F _ostree_cli ostree_cli ostree_native
