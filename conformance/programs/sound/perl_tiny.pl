#!/usr/bin/env perl
# A runtime on HTTP::Tiny and JSON::PP, which come with Perl, with the kit's handler in it.
use strict;
use warnings;
use HTTP::Tiny;
use JSON::PP;
use Time::HiRes qw(sleep time);

my $api = "http://$ENV{AWS_LAMBDA_RUNTIME_API}/2018-06-01/runtime";
my $http = HTTP::Tiny->new(timeout => 86_400 * 7);
my $json = JSON::PP->new->utf8->allow_nonref->allow_bignum;

sub fail_with {
    my ($path, $type, $message) = @_;
    my $body = $json->encode({ errorType => $type, errorMessage => $message, stackTrace => [] });
    return $http->post("$api/$path", { content => $body, headers => {
        "Content-Type" => "application/json", "Lambda-Runtime-Function-Error-Type" => "Perl.$type" } });
}

package OutOfCheese { sub new { my ($class, $text) = @_; return bless { text => $text }, $class } }

if ($ENV{_HANDLER} ne "conformance.handler") {
    fail_with("init/error", "NoHandler", "there is no handler $ENV{_HANDLER} that can be loaded");
    exit 1;
}

my %do = (
    echo => sub { $_[0]{value} },
    bytes => sub { my $text = $_[0]{value}; utf8::encode($text); [map { ord } split //, $text] },
    large => sub { "x" x $_[0]{value} },
    stream => sub { join "", @{ $_[0]{value} } },
    sleep => sub { sleep($_[0]{value} / 1000); $_[0]{value} },
    context => sub {
        my ($event, $context) = @_;
        my $first = $context->{deadline} - int(1000 * time);
        sleep($event->{value} / 1000);
        return { requestId => $context->{id}, functionArn => $context->{arn}, traceId => $ENV{_X_AMZN_TRACE_ID},
            remaining => [$first, $context->{deadline} - int(1000 * time)] };
    },
    print => sub { local $| = 1; print $_[0]{value}, "\n"; undef },
    fail => sub { die OutOfCheese->new($_[0]{message}) },
    exit => sub { exit $_[0]{value} },
    hang => sub { sleep 1000; undef },
);

while (1) {
    my $next = $http->get("$api/invocation/next");
    if ($next->{status} == 403) { sleep 0.05; next }
    exit 1 if $next->{status} != 200;
    my $headers = $next->{headers};
    my $id = $headers->{"lambda-runtime-aws-request-id"};
    $ENV{_X_AMZN_TRACE_ID} = $headers->{"lambda-runtime-trace-id"} // "";
    my $context = { id => $id, arn => $headers->{"lambda-runtime-invoked-function-arn"},
        deadline => $headers->{"lambda-runtime-deadline-ms"} };
    my $body = eval {
        my $event = $json->decode($next->{content});
        my $action = ref $event eq "HASH" ? $event->{do} : undef;
        $json->encode(defined $action ? $do{$action}->($event, $context) : $event);
    };
    my $reply;
    if (my $fault = $@) {
        $reply = ref $fault ? fail_with("invocation/$id/error", ref $fault, $fault->{text})
            : fail_with("invocation/$id/error", "Runtime", "$fault");
    } else {
        $reply = $http->post("$api/invocation/$id/response", { content => $body });
    }
    exit 1 if $reply->{status} == 500;
}
