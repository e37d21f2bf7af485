#!/usr/bin/env perl
# Prints the messages of a base of echonet, of folders of *.msg files, or of packets, read from their bytes.
# Arguments: base FILE | msg FOLDER.. | packet FILE.. | posted FIELD.. A message is one line of fields with bars
# between them. `posted` prints the line of a posting without the last two fields. Its body is standard input. `make
# FROM TO LINE..` prints a packet from 1:10/FROM to 1:10/TO of one message with these lines (^A is 01).
#
#     AREA|ID|REPLY|FROM|TO|SUBJECT|DATETIME|BODY|SEEN|PATH
#
# BODY is the lines with \r after each. Bytes that do not print, bars and backslashes are printed as \xNN. SEEN and
# PATH are full net/node entries. The area of a *.msg file is its folder's name, in upper case.
use strict;
use warnings;

sub slurp {
  my ($path) = @_;
  open(my $file, '<:raw', $path) or die "$path: $!\n";
  local $/;
  my $bytes = <$file>;
  return defined $bytes ? $bytes : '';
}

sub plain {
  my ($bytes) = @_;
  $bytes =~ s/([^ -~]|[\\|])/sprintf('\\x%02x', ord($1))/ge;
  return $bytes;
}

# The entries of SEEN-BY or PATH lines, with the nets that they leave out.
sub entries {
  my @full;
  for my $line (@_) {
    my $net = '';
    for my $entry (split ' ', $line) {
      if ($entry =~ m{^(\d+)/(\d+)$}) { $net = $1; push @full, $entry }
      else { push @full, "$net/$entry" }
    }
  }
  return join ' ', @full;
}

# Splits a text into control lines and the rest. SEEN-BY counts only after the last line of another kind.
sub told {
  my ($area, $from, $to, $subject, $date, $text) = @_;
  my ($id, $reply, @body, @seen, @path) = ('', '');
  my @lines = split /\r/, $text;
  for my $line (@lines) {
    $line =~ s/^\n+//;
    if ($line =~ /^AREA:\s*(\S+)/ && !@body && $area eq '') { $area = uc $1 }
    elsif ($line =~ /^\x01MSGID:\s*(.*?)\s*$/) { $id = $1 if $id eq '' }
    elsif ($line =~ /^\x01REPLY:\s*(.*?)\s*$/) { $reply = $1 if $reply eq '' }
    elsif ($line =~ /^\x01PATH:(.*)$/) { push @path, $1 }
    elsif ($line =~ /^\x01/) { }
    elsif ($line =~ /^SEEN-BY:(.*)$/) { push @seen, $1 }
    else { push @body, map("SEEN-BY:$_", @seen), $line; @seen = () }
  }
  pop @body while @body && $body[-1] =~ /^\s*$/;
  print join('|', map(plain($_), $area, $id, $reply, $from, $to, $subject, $date),
    join('', map(plain($_) . '\r', @body)), entries(@seen), entries(@path)), "\n";
}

sub packet {
  my $bytes = slurp($_[0]);
  my $at = 58;
  while (unpack('v', substr($bytes, $at, 2)) == 2) {
    my ($date, $to, $from, $subject, $text) = unpack('a20 Z* Z* Z* Z*', substr($bytes, $at + 14));
    $at += 14 + 20 + length($to) + length($from) + length($subject) + length($text) + 4;
    $date =~ s/\0.*//s;
    told('', $from, $to, $subject, $date, $text);
  }
}

sub base {
  my $bytes = slurp($_[0]);
  my ($magic, $cursor, $count) = unpack('a8 V V', $bytes);
  my $at = 16;
  for (1 .. $count) {
    my ($kind, $date, $to, $from, $subject) = unpack('C x6 a20 C/a C/a C/a', substr($bytes, $at));
    $at += 27 + 3 + length($to) + length($from) + length($subject);
    die "$_[0]: a purged message\n" if $kind > 1;
    my ($text) = unpack('V/a', substr($bytes, $at));
    $at += 4 + length($text);
    $date =~ s/\0.*//s;
    told('', $from, $to, $subject, $date, $text);
  }
}

sub folder {
  my ($folder) = @_;
  my ($area) = $folder =~ m{([^/]+)/*$};
  for my $path (sort { ($a =~ /(\d+)\.msg$/)[0] <=> ($b =~ /(\d+)\.msg$/)[0] } glob "$folder/*.msg") {
    my $bytes = slurp($path);
    my ($from, $to, $subject, $date) = unpack('Z36 Z36 Z72 Z20', $bytes);
    my ($text) = unpack('Z*', substr($bytes, 190));
    told(uc $area, $from, $to, $subject, $date, $text);
  }
}

# Arguments: the fields up to the date, then the lines after the body.
sub posted {
  my @fields = splice @_, 0, 7;
  local $/ = "\n";
  chomp(my @lines = <STDIN>);
  print join('|', map(plain($_), @fields), join('', map(plain($_) . '\r', @lines, @_))), "\n";
}

sub make {
  my ($from, $to, @lines) = @_;
  s/\^A/\x01/g for @lines;
  print pack('v12 C2 x8 v2 x20', $from, $to, 2026, 6, 6, 0, 0, 0, 0, 2, 10, 10, 0, 0, 1, 1),
    pack('v7 a20', 2, $from, $to, 10, 10, 0, 0, '06 Jul 26  00:00:00'),
    "All\0Zed\0Made\0", map("$_\r", @lines), "\0\0\0";
}

my ($kind, @words) = @ARGV;
if (($kind // '') eq 'make') { make(@words); exit 0 }
if (($kind // '') eq 'posted') { posted(@words); exit 0 }
my %readers = (base => \&base, msg => \&folder, packet => \&packet);
my $reader = $readers{$kind // ''} or die "usage: mail.pl base|msg|packet PATH.. | posted FIELD.. | make FROM TO LINE..\n";
$reader->($_) for @words;
