//! The life of a channel: who holds its slot, who gives it back, and when a disconnect is due. A page to read; the module has nothing else.
//!
//! A slot is *closed* when its channel has ended (`Disconnected`), and *free* for the next channel when it is closed **and** nobody holds it. Closing
//! doesn't end a hold, and ending a hold is the only thing that a peer can't do for us: sixteen phones that come and go without [`dec_ref`] leave no slot
//! for the seventeenth. [`Table::held`] has the slots that are closed and wait for it.
//!
//! A request that a packet brought is met at once: [`next_pending`] of that link until it gives none, with [`accept_pending`] or [`reject_pending`] for each;
//! [`attention`] doesn't name pendings. Then, after each packet that came in and after each link that went down, a loop does three things in this order, and
//! forgets nothing:
//!
//! 1. jobs: [`receive`] on every slot that [`attention`] names, until none waits or it is refused; the credits go out. The buffer has the slot's [`mtu`], or the packet
//!    size less 6: a shorter one can be refused by 12, and then the job waits on, its slot goes on calling, and the next step can wipe it. (An attempt of ours that
//!    failed is named too, and refused by 11 here: go on with the next slot; [`opened`] tells why it failed, and closes it.)
//! 2. disconnects: [`next_disconnect`] until none is due; what it writes goes out;
//! 3. holds: [`dec_ref`] on every slot that [`Table::held`] names.
//!
//! [`opened`] is asked behind these three: of a channel that is disconnecting it closes the slot, and a request that was still due is never written.
//!
//! `examples/printer.rs` is such a loop. Packets that came together can go in together: their frames by [`dispatch_run`], in the order in which they came and up to the next
//! packet of signals, then the three steps once. As no job is taken meanwhile, such a run brings a slot no more jobs than can still wait there.
//!
//! # A phone that connects and leaves
//!
//! | what happens | call | slot | holds |
//! |---|---|---|---|
//! | its connect request comes | [`signal`] | `PeerConnecting` | 0 |
//! | or one with an MTU or MPS under [`SIZE_LEAST`] | [`signal`]; the reply tells it, by result 11 | free | 0 |
//! | we see it | [`next_pending`] gives a [`Hold`] | the same | 1 |
//! | we take it | [`accept_pending`] | `Connected` | 1 |
//! | or we refuse it | [`reject_pending`] takes the hold | free | 0 |
//! | or we let it be | [`drop_pending`] takes the hold | free | 0 |
//! | its disconnect request comes | [`signal`] | `PeerDisconnecting`: a disconnect is due | 1 |
//! | we answer | [`next_disconnect`] | `Disconnected`, still held | 1 |
//! | we give the slot back | [`dec_ref`] takes the hold | free | 0 |
//!
//! Where we leave first:
//!
//! | what happens | call | slot | holds |
//! |---|---|---|---|
//! | we let go | [`dec_ref`] takes the hold | `Disconnecting(false)`: a disconnect is due | 0 |
//! | our request goes out, once | [`next_disconnect`] | `Disconnecting(true)` | 0 |
//! | the phone's response comes | [`signal`] | free | 0 |
//! | or the phone doesn't answer: after a timeout of yours | [`opened`] of that slot and link gives 18 | free | 0 |
//! | or its link goes down | [`disconnected`] | free | 0 |
//!
//! With [`disconnect`] in place of the first row the hold stays, the slot is closed and not free in the end, and [`dec_ref`] is still to come. A phone that
//! never answers keeps its slot while its link is up, and sixteen channels of one such link leave no slot for anybody else. The manager has no clock and
//! counts no link's channels: a firmware has a timeout, or lets one link have a few channels and refuses the rest by [`reject_pending`], or both.
//!
//! # A phone that closes in mid-job
//!
//! | what happens | call | slot | holds |
//! |---|---|---|---|
//! | half of a job is there | [`dispatch`] | `Connected` | 1 |
//! | its disconnect request comes | [`signal`]; the half job is zeroed | `PeerDisconnecting` | 1 |
//! | jobs that were finished before | [`receive`] takes them; nothing is granted | the same | 1 |
//! | we answer | [`next_disconnect`]; jobs that still wait are zeroed | `Disconnected`, still held | 1 |
//! | we give the slot back | [`dec_ref`] takes the hold | free | 0 |
//!
//! A frame above our MPS or one that breaks its job (refusals 9 and 19), and credits above 65,535 (9), leave `Disconnecting`: [`next_disconnect`] writes our
//! request then.
//!
//! A phone that closes before it was accepted leaves `PeerDisconnecting` too. [`accept_pending`] and [`reject_pending`] refuse by 8, and the hold of
//! [`next_pending`] ends by [`dec_ref`] or [`drop_pending`].
//!
//! # A sheet of ours, in portions
//!
//! | what happens | call | slot | holds |
//! |---|---|---|---|
//! | its length is stated, its credits are set aside | [`start_job`] gives an [`OpenJob`] | `Connected`, with a job | 1 |
//! | octets come to be, frames fill and go out | [`OpenJob::give`] | the same | 1 |
//! | the last octet is given | the same | `Connected`, without one | 1 |
//! | or it is cancelled before a frame went out | [`OpenJob::cancel`]; its credits come back | `Connected`, without one | 1 |
//! | or later | [`OpenJob::cancel`] | `Disconnecting(false)`: a disconnect is due | 1 |
//!
//! Everything that ends a channel closes its job. No credit comes back then, and the value that is left is refused by 11.
//!
//! # What a service screen shows
//!
//! [`tallies`] has what a slot's channel came to: frames sent and received, sends and frames refused for want of credits. They go with the channel:
//!
//! | what happens | slot | tallies |
//! |---|---|---|
//! | it is opened | `Connected` | zeros, and they count from here |
//! | we end it, or a frame or credits that break the rules do | `Disconnecting(false)` | zeros, at once |
//! | the phone ends it | `PeerDisconnecting` | as they were |
//! | [`next_disconnect`] answers, or [`opened`] or [`disconnected`] closes the slot | `Disconnected` | zeros |
//!
//! So a screen that keeps what a phone came to reads them before [`next_disconnect`].
//!
//! # An attempt of our own
//!
//! | what happens | call | slot | holds |
//! |---|---|---|---|
//! | we ask | [`create`] | `Connecting` | 0 |
//! | the peer hasn't answered | [`opened`] gives none | the same | 0 |
//! | it opens | [`signal`], then [`opened`] gives a [`Hold`] | `Connected` | 1 |
//! | or it fails | [`signal`] gives 17 and leaves `ConnectFailed`, then [`opened`] gives 17 | free | 0 |
//! | or we give up | [`give_up`] | free | 0 |
//!
//! A peer that opens it with an MTU or MPS under [`SIZE_LEAST`] believes in a channel on which we could never send, and has to be told:
//!
//! | what happens | call | slot | holds |
//! |---|---|---|---|
//! | its response comes | [`signal`] gives 9 | `Disconnecting(false)`: a disconnect is due | 0 |
//! | our request goes out, once | [`next_disconnect`] | `Disconnecting(true)` | 0 |
//! | the peer's response comes | [`signal`] | free | 0 |
//! | or it doesn't answer: after a timeout of yours | [`opened`] gives 18 | free | 0 |
//!
//! [`opened`] before [`next_disconnect`] gives 18 too and closes the slot, but our request is never written: the peer keeps a channel that isn't there.
//!
//! An attempt has no hold before [`opened`] gives one: once it is closed its slot can be another's. An unmatched connect response (8) and a link that
//! goes down close it too, and [`opened`] gives 18 then. From [`opened`] on it is as a phone's channel.
//!
//! # A link that goes down
//!
//! | what happens | call | slot | holds |
//! |---|---|---|---|
//! | the controller says so | [`disconnected`]; all octets of its jobs are zeroed | each `Disconnected`, still held | as before |
//! | we give the slots back | [`dec_ref`] takes each hold | free | 0 |
//!
//! No disconnect is due on a link that is down. Holds of another link stay as they are.
//!
//! # A manager that ends
//!
//! [`make`] counts every slot anew, and a manager that is put away takes its table with it: a [`Hold`] of before ends by [`into_index`], each one, or it
//! panics in builds with debug assertions. Phones aren't told so: where their links stay up, [`disconnect`] and [`next_disconnect`] come before.
//!
//! | what happens | call | slot | holds |
//! |---|---|---|---|
//! | each channel is to end | [`disconnect`] of each slot | `Disconnecting(false)` | 1 |
//! | our requests go out | [`next_disconnect`] until none is due | `Disconnecting(true)` | 1 |
//! | each hold is put away | [`into_index`] | nobody's | – |
//! | the manager goes | dropped, or [`make`] | | |
//!
//! Of a table that was kept, [`Hold::of`] takes up each hold that [`Slot::hold`] counts.
//!
//! [`accept_pending`]: crate::ChannelManager::accept_pending
//! [`attention`]: crate::ChannelManager::attention
//! [`create`]: crate::ChannelManager::create
//! [`dec_ref`]: crate::ChannelManager::dec_ref
//! [`disconnect`]: crate::ChannelManager::disconnect
//! [`disconnected`]: crate::ChannelManager::disconnected
//! [`dispatch`]: crate::ChannelManager::dispatch
//! [`dispatch_run`]: crate::ChannelManager::dispatch_run
//! [`drop_pending`]: crate::ChannelManager::drop_pending
//! [`give_up`]: crate::ChannelManager::give_up
//! [`Hold`]: crate::Hold
//! [`Hold::of`]: crate::Hold::of
//! [`into_index`]: crate::Hold::into_index
//! [`make`]: crate::ChannelManager::make
//! [`OpenJob`]: crate::OpenJob
//! [`OpenJob::cancel`]: crate::OpenJob::cancel
//! [`OpenJob::give`]: crate::OpenJob::give
//! [`start_job`]: crate::ChannelManager::start_job
//! [`next_disconnect`]: crate::ChannelManager::next_disconnect
//! [`next_pending`]: crate::ChannelManager::next_pending
//! [`opened`]: crate::ChannelManager::opened
//! [`mtu`]: crate::ChannelManager::mtu
//! [`receive`]: crate::ChannelManager::receive
//! [`reject_pending`]: crate::ChannelManager::reject_pending
//! [`signal`]: crate::ChannelManager::signal
//! [`SIZE_LEAST`]: crate::SIZE_LEAST
//! [`Slot::hold`]: crate::Slot::hold
//! [`Table::held`]: crate::Table::held
//! [`tallies`]: crate::ChannelManager::tallies
