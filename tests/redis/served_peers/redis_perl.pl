# Tests `resp serve --test-server` with the Perl module Redis: redis_perl.pl PORT. The server must have no key.
use strict;
use warnings;
use Redis;

my $port = shift;

sub holds {
    my ($name, $got, $wanted) = @_;
    $got = "undefined" unless defined $got;
    die "$name: $got\n" unless $got eq $wanted;
}

my $first = Redis->new(server => "127.0.0.1:$port", name => "perl");
my $bytes = "\x00\r\n\xff";
holds("name", scalar $first->client_getname, "perl");
holds("set", $first->set(key => $bytes), "OK");
holds("get", scalar $first->get("key"), $bytes);
holds("no value", scalar $first->get("none"), "undefined");
holds("exists", $first->exists("key"), 1);
holds("dbsize", $first->dbsize, 1);

my $other = Redis->new(server => "127.0.0.1:$port", on_connect => sub { shift->select(5) });
holds("other database", scalar $other->get("key"), "undefined");
my @said;
for my $number (0 .. 499) {
    my $keep = sub { push @said, defined $_[1] ? "error" : $_[0] };
    $other->set("key:$number", $number, $keep);
    $other->get("key:$number", $keep);
}
$other->wait_all_responses;
holds("pipeline", join(",", @said), join(",", map { ("OK", $_) } 0 .. 499));
holds("keys", $other->dbsize, 500);
holds("only if absent", scalar $other->set("key:0", "x", "NX"), "undefined");
holds("del", $other->del("key:0", "key:1", "none"), 2);
die "database 16 was selected\n" if eval { $other->select(16); 1 };
die "error: $@\n" unless $@ =~ /ERR DB index is out of range/;
holds("flushdb", $other->flushdb, "OK");
holds("databases", $other->dbsize . $first->dbsize, "01");
holds("flushall", $first->flushall, "OK");
holds("nothing", $first->dbsize, 0);
$first->quit;
