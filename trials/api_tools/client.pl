# A client that OpenAPI::Client makes of the description: its path, and the server's address. It adds a visit, commits a draft and reads the
# visit, and tries a draft that the description does not allow. It prints the status and the body of each reply.
use strict;
use warnings;
use Mojo::URL;
use OpenAPI::Client;

my $client = OpenAPI::Client->new($ARGV[0], base_url => Mojo::URL->new($ARGV[1]));

sub told {
    my ($tx) = @_;
    print $tx->res->code, " ", $tx->error && !$tx->res->headers->header("X-Version") ? "not sent" : $tx->res->body, "\n";
}

told($client->addVisit({}, json => {name => "V1", type => "A320", class => 1, on => 600, off => 660, arr => {flight => "LH123", day => 1}}));
told($client->commitDraft({"X-Seen" => 1}, json => {desk => "PERL", draft => 1, base => 1, edits => [{put => {visit => 1, part => 1, stand => "N1"}}]}));
told($client->readVisit({visit => 1, "X-Seen" => 2}));
told($client->commitDraft({}, json => {desk => "PERL", draft => 2, base => 2, edits => []}));
