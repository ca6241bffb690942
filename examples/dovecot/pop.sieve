# /etc/dovecot/sieve/pop.sieve, compiled by: sievec /etc/dovecot/sieve/pop.sieve
require ["vnd.dovecot.filter", "fileinto", "mailbox"];

# The message as it came: what is stored before a filter is not changed by it. Not
# by keep, which comes after all else: where the disk is full, the copy would be
# stored without it, and once more at each try.
fileinto "INBOX";

# Where the filter fails there is no copy, and the message is in INBOX alone.
if filter "hennelaku-mailbox" ["--surrogate"] {
  fileinto :create "Pop";
}
