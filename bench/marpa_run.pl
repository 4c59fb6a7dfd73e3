#!/usr/bin/env perl
# Reads an input by a grammar with Marpa::R2, and writes the value of each parse, one a line. Arguments: the grammar, the input, and
# the ranking method if it is not `none`.
use strict;
use warnings;
use Marpa::R2;

sub text_of {
    my ($name) = @_;
    open my $file, '<:encoding(UTF-8)', $name or die "$name: $!";
    local $/;
    my $text = <$file>;
    return $text;
}

sub quoted {
    my ($text) = @_;
    $text =~ s/([\\"\$\@])/\\$1/g;
    $text =~ s/\n/\\n/g;
    $text =~ s/\r/\\r/g;
    $text =~ s/\t/\\t/g;
    $text =~ s/([\x00-\x1f\x7f-\x9f])/sprintf '\\x{%02x}', ord $1/ge;
    return qq{"$text"};
}

# The text of a value. Values that are to do stand on a stack, with references to texts between them.
sub line_of {
    my ($value) = @_;
    my @todo = ($value);
    my @text;
    while (@todo) {
        my $next = pop @todo;
        if ( ref $next eq 'SCALAR' ) { push @text, ${$next} }
        elsif ( ref $next eq 'ARRAY' ) {
            push @todo, \']';
            for my $i ( reverse 0 .. $#{$next} ) {
                push @todo, $next->[$i];
                push @todo, \',' if $i;
            }
            push @todo, \'[';
        }
        elsif ( defined $next ) { push @text, quoted($next) }
        else                    { push @text, 'undef' }
    }
    return join q{}, @text, "\n";
}

my ( $grammar_name, $input_name, $ranking ) = @ARGV;
my $source = text_of($grammar_name);
my $grammar = Marpa::R2::Scanless::G->new( { source => \$source } );
my $recce = Marpa::R2::Scanless::R->new(
    { grammar => $grammar, ranking_method => $ranking // 'none' } );
my $input = text_of($input_name);
$recce->read( \$input );
binmode STDOUT, ':encoding(UTF-8)';
my $count = 0;
while ( my $value = $recce->value() ) {
    print line_of( ${$value} );
    $count++;
}
die "no parse\n" unless $count;
