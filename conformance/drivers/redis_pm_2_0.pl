#!/usr/bin/perl
# Redis.pm 2.0 (libredis-perl): the reader of its connection.
# needs: perl /usr/share/perl5/Redis.pm
# run: perl {FILE}
use strict;
use warnings;
use JSON::PP;
use Redis;

# A socket of pieces, of which one call reads one.
package Pieces;
sub TIEHANDLE { my ($class, @left) = @_; return bless { left => [@left] }, $class }
sub READ {
    my ($self, undef, $size, $at) = @_;
    die "dry\n" unless @{ $self->{left} };
    my $piece = shift @{ $self->{left} };
    if ($piece eq 'end') { return 0 }
    unshift @{ $self->{left} }, substr($piece, $size) if length($piece) > $size;
    $piece = substr($piece, 0, $size);
    $_[1] = '' unless defined $_[1];
    substr($_[1], $at // 0) = $piece;
    return length $piece;
}
sub CLOSE { return 1 }

package main;

sub told {
    my ($value, $error) = @_;
    return ['error', $error] if defined $error;
    return ['null'] unless defined $value;
    return ['array', [map { told(ref $_ eq 'ARRAY' && 0 ? @$_ : $_) } @$value]] if ref $value;
    return ['bulk', "$value"];
}

sub judged {
    my ($values, @pieces) = @_;
    my $handle = \do { local *HANDLE };
    tie *$handle, 'Pieces', @pieces;
    my $redis = bless { sock => $handle, __buf => '', debug => 0 }, 'Redis';
    while (1) {
        my @reply = eval { $redis->__read_response('GET') };
        if (my $why = $@) {
            return 'more' if $why eq "dry\n" || $why =~ /Error while reading/;
            # An error inside an array is raised, and the caller goes on with the connection.
            if ($why =~ /^\[GET\] (.*), \s?at /s) { push @$values, ['error', $1]; next }
            return 'error';
        }
        push @$values, told(@reply);
    }
}

if (@ARGV) {
    print '{"parser": "Redis.pm 2.000", "profiles": ["resp2"], "integers": "text", "same": [["null", "nullbulk", "nullarray"], ["bulk", "simple", "integer"]]}', "\n";
    exit;
}
$| = 1;
my $json = JSON::PP->new->latin1(0)->ascii;
while (my $line = <STDIN>) {
    chomp $line;
    my ($id, undef, $pieces) = split / /, $line;
    my @values;
    my $end = judged(\@values, map { $_ eq 'end' ? 'end' : pack 'H*', $_ } grep { length } split /,/, $pieces // '');
    print $json->encode({ id => $id, values => \@values, end => $end }), "\n";
}
