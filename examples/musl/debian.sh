# For the scripts that make the C library and those that take it: where it is, and Debian's packages in a folder of one's own.

# The absolute path of the library's folder, for the scripts in $1: `library` beside them, ~/.local/share/aprof/musl where they
# are below /usr, or the one that APROF_MUSL names.
library_of() {
  local folder=${APROF_MUSL-}
  case $1 in
    /usr/*) folder=${folder:-${XDG_DATA_HOME:-$HOME/.local/share}/aprof/musl} ;;
  esac
  realpath -ms -- "${folder:-$1/library}"
}

# Each tool is there, or the script $1 ends with a word about it.
need_tools() {
  local tool script=$1
  shift
  for tool; do
    if ! command -v "$tool" > /dev/null; then
      echo "$script: $tool is missing; it is in Debian's packages: apt-get install clang lld llvm make xz-utils dpkg-dev" >&2
      exit 1
    fi
  done
}

# The site that the machine has its own packages from: the first that says it is Debian's, or else the first. A release with a
# dash in its name has updates alone.
site_of_debian() {
  apt-get indextargets --format '$(SITE) $(RELEASE) $(ORIGIN)' 'Created-By: Packages' | awk '
    $2 ~ /-/ { next }
    !first { first = $1 }
    NF == 3 && $3 == "Debian" { debian = $1; exit }
    END { print debian ? debian : first }'
}

# Goes to a new folder, which is removed at the end, and has apt work there without rights of root: on packages of Debian 12,
# and sources of the release $2.
begin_apt() {
  local site
  work=$(mktemp -d)
  trap 'rm -rf "$work"' EXIT
  cd "$work"
  site=$(site_of_debian)
  if [ -z "$site" ]; then
    echo "$1: apt knows no package source of Debian here; run apt-get update as root first" >&2
    exit 1
  fi
  mkdir -p lists/partial cache/archives/partial
  cat > sources.list << END
deb [signed-by=/usr/share/keyrings/debian-archive-keyring.gpg] $site bookworm main
deb-src [signed-by=/usr/share/keyrings/debian-archive-keyring.gpg] $site $2 main
END
  cat > apt.conf << END
Dir::Etc::SourceList "$work/sources.list";
Dir::Etc::SourceParts "/dev/null";
Dir::State::Lists "$work/lists";
Dir::Cache "$work/cache";
APT::Sandbox::User "";
Quiet "1";
END
  export APT_CONFIG=$work/apt.conf
  apt-get update
}
