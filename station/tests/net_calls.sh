#!/usr/bin/env bash
# What the checks of a net do with its stations. They run the program $program, and $tool for a station.
# To be sourced.
post() { echo "Body of $3" | "$tool" "$1" post TEST All "$2" "$3" "${@:4}"; }
scan() { "$tool" "$1" scan; }
toss() { "$tool" "$1" toss; }

# Tosses, and sets the status. All that it prints goes to printed.txt.
toss_some() {
  status=0
  toss "$1" > printed.txt 2>&1 || status=$?
}

# The last line of the log of a station, with its timestamp as MOMENT.
last_log() { tail -n 1 "$1/log" | sed -E 's/^[0-9]{4}-[0-9]{2}-[0-9]{2}T[0-9]{2}:[0-9]{2}:[0-9]{2}Z /MOMENT /'; }

# The cursor of a base, and how many messages it has.
counts() {
  local file=$1/base
  if [ -d "$file" ]; then
    rm -f converted
    "$program" convert "$file" converted > /dev/null
    file=converted
  fi
  od -An -v -tu4 -j8 -N8 "$file" | tr -s ' ' | sed 's/^ //'
}

# Keeps the base of Beta, and restores it.
keep_base() { rm -rf two.base && cp -r two/base two.base; }
put_back() { rm -rf two/base && cp -r two.base two/base; }

# Does with a flow file what the mailer does. Arguments: the sending station, the flow file, the receiving station.
carry() {
  local path
  while IFS= read -r path; do
    if [ -e "${path#^}" ]; then mv "${path#^}" "$3/inbound/"; fi
  done < "$1/outbound/$2.flo"
  rm "$1/outbound/$2.flo"
}
