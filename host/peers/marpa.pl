#!/usr/bin/env perl
# The time of one parse by Marpa::R2: marpa.pl GRAMMAR RECORD SECONDS
# Prints the milliseconds of making the grammar, those of a parse (the median of
# as many as the seconds allow, from 1 to 11), and whether the record is
# ambiguous (1) or not (0). The processor's time.
use strict;
use warnings;
use Time::HiRes qw(clock_gettime CLOCK_PROCESS_CPUTIME_ID);
use Marpa::R2;

sub now { return clock_gettime(CLOCK_PROCESS_CPUTIME_ID); }

sub slurp {
    my ($path) = @_;
    open my $file, '<', $path or die "$path: $!";
    local $/;
    return scalar <$file>;
}

my ( $source, $record, $seconds ) = ( slurp( $ARGV[0] ), slurp( $ARGV[1] ), $ARGV[2] );
my $start = now();
my $grammar = Marpa::R2::Scanless::G->new( { source => \$source } );
my $making = now() - $start;
my ( $metric, @times, $all );
$all = 0;
do {
    $start = now();
    # Without the 0 it warns of each item from some hundred on.
    my $recognizer =
        Marpa::R2::Scanless::R->new( { grammar => $grammar, too_many_earley_items => 0 } );
    $recognizer->read( \$record );
    # Builds the forest of the whole record; 1 where it holds one parse.
    $metric = $recognizer->ambiguity_metric();
    die "no parse" if !$metric;
    push @times, now() - $start;
    $all += $times[-1];
} while ( @times < 11 && $all + $times[-1] < $seconds );
@times = sort { $a <=> $b } @times;
printf "%.6f %.6f %d\n", $making * 1000, $times[ @times / 2 ] * 1000, $metric > 1 ? 1 : 0;
