# What the scripts on PostgreSQL share, after lib.sh: a server of their own, with the extension, in the folder
# `work`.
#
# The server's programs find their other files relative to their own place. So the extension is installed
# below `work`, beside links to the files of Debian's packages, and nothing outside that folder is touched.

postgres=/usr/lib/postgresql/15
installed=$work/root
extension=$work/source/postgresql

# The server doesn't run as root.
as_server() {
    if [ "$(id -u)" = 0 ]; then runuser -u postgres -- "$@"; else "$@"; fi
}

# Compiles the extension in a copy of its sources, over the library in a folder. Its output is the warnings.
compile_extension() {
    mkdir -p "$work/source"
    cp -R "$root/postgresql" "$root/samples" "$root/include" "$work/source"
    (cd "$extension" && make -s clean PG_CONFIG="$postgres/bin/pg_config" &&
        make -s PG_CONFIG="$postgres/bin/pg_config" LIBRARY="$1" INCLUDE="$2")
}

# Links to every file of the server's packages, except for the programs, which are copied.
install_server() {
    for folder in "lib/postgresql/15/lib" "share/postgresql/15"; do
        (cd /usr && find "$folder" -type d) | (cd "$work" && sed 's|^|root/usr/|' | xargs mkdir -p)
        (cd /usr && find "$folder" ! -type d) | while read -r file; do ln -s "/usr/$file" "$installed/usr/$file"; done
    done
    mkdir -p "$installed$postgres"
    cp -R "$postgres/bin" "$installed$postgres/bin"
    (cd "$extension" && make -s install PG_CONFIG="$postgres/bin/pg_config" DESTDIR="$installed" LIBRARY="$1" INCLUDE="$2")
}

# Starts the server. It listens in a folder alone, and loses nothing if a process of it is killed.
start_server() {
    export PGHOST="$work/socket" PGUSER=postgres PGDATABASE=postgres PGOPTIONS= PSQLRC=/dev/null
    PATH=$installed$postgres/bin:$PATH
    chmod 711 "$work"
    mkdir "$work/socket" "$work/server"
    [ "$(id -u)" != 0 ] || chown postgres "$work/socket" "$work/server"
    (
        cd "$work/server"
        as_server "$installed$postgres/bin/initdb" -D "$work/server/data" -A trust -U postgres -E UTF8 --no-locale -N
    ) > "$work/initdb" 2>&1 || return
    cat >> "$work/server/data/postgresql.conf" << END
listen_addresses = ''
unix_socket_directories = '$work/socket'
fsync = off
max_connections = 50
max_parallel_workers = 8
max_worker_processes = 12
log_min_messages = fatal
END
    (
        cd "$work/server"
        as_server "$installed$postgres/bin/pg_ctl" -D "$work/server/data" -l "$work/server/log" -w -t 60 start
    ) > "$work/started" 2>&1
}

stop_server() {
    [ ! -d "$work/server/data" ] || (
        cd "$work/server"
        as_server "$installed$postgres/bin/pg_ctl" -D "$work/server/data" -m immediate stop
    ) > "$work/stopped" 2>&1
}

# Runs SQL of standard input, or of the words; prints the rows, with bars between columns, or the error.
sql() { psql -X -q -A -t "$@" 2>&1; }
