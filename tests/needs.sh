# Read by the scripts that need programs beside the Rattle kit, before they do anything else.
#   needs COMMAND:PACKAGE ..    each command is there, or Debian's package that has it is installed, or the script stops and names the package

# at most so many seconds for an installation
install_limit=600

needs() { # COMMAND:PACKAGE ..
    local pair packages=()
    for pair in "$@"; do
        command -v "${pair%%:*}" >/dev/null || packages+=("${pair#*:}")
    done
    [ ${#packages[@]} -gt 0 ] || return 0
    if [ "$(id -u)" != 0 ] || ! command -v apt-get >/dev/null; then
        cannot "not there: ${packages[*]}. Install these packages (Debian's names) and run it again"
    fi
    echo "installing ${packages[*]} from Debian's packages, for at most $install_limit seconds"
    timeout "$install_limit" sh -c 'apt-get update -qq && DEBIAN_FRONTEND=noninteractive apt-get install -y -qq --no-install-recommends "$@"' sh \
        "${packages[@]}" </dev/null >/dev/null 2>&1 || cannot "apt-get does not install ${packages[*]} here: install these packages and run it again"
    for pair in "$@"; do
        command -v "${pair%%:*}" >/dev/null || cannot "the package ${pair#*:} is installed, and there is still no ${pair%%:*}"
    done
}
