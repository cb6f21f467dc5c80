using System;
using System.Threading;
using System.Threading.Tasks;
using static System.Threading.Tasks.TaskContinuationOptions;

// some of these methods are wrong, and lose a task
#pragma warning disable 4014

namespace Sample
{
    /// <summary>The bugs of docs/GALLERY.md, each with its repair.</summary>
    public class Gallery
    {
        // ---- fire and forget

        public async Task Place()
        {
            await Task.Run(() => Save());
            Task.Run(() => SendMail());            // nobody waits for it, and nobody looks at it
            Confirm();
        }

        public async Task PlaceRepaired()
        {
            await Task.Run(() => Save());
            try { await Task.Run(() => SendMail()); }
            catch (Exception e) { Log(e); }
            Confirm();
        }

        // ---- ContinueWith(async ..) without Unwrap

        public void Export()
        {
            var ready = Task.Run(() => Prepare());
            var begun = ready.ContinueWith(async _ => await Task.Run(() => Save()), OnlyOnRanToCompletion);   // a Task<Task>
            begun.ContinueWith(t => Close(t.Exception));
        }

        public void ExportRepaired()
        {
            var ready = Task.Run(() => Prepare());
            var save  = ready.ContinueWith(async _ => await Task.Run(() => Save()), OnlyOnRanToCompletion).Unwrap();
            save.ContinueWith(t => Close(t.Exception));
        }

        // ---- WhenAny with a delay that isn't canceled

        public async Task Ask()
        {
            var answer = Task.Run(() => Fetch());
            var limit  = Task.Delay(5000);                     // nobody cancels it
            await Task.WhenAny(answer, limit);
            Close();
        }

        public async Task AskRepaired()
        {
            var over   = new CancellationTokenSource();
            var answer = Task.Run(() => Fetch());
            answer.ContinueWith(t => Log(t.Exception), OnlyOnFaulted);
            var limit  = Task.Delay(5000, over.Token);
            await Task.WhenAny(answer, limit);
            over.Cancel();                                     // the delay is over when this comes back
            Close();
        }

        // ---- a rollback under the canceled token

        public async Task Release(CancellationToken stop)
        {
            try
            {
                await Task.Run(() => Deploy(), stop);
                await Task.Run(() => Switch(), stop);
            }
            catch (Exception)
            {
                await Task.Run(() => Rollback(), stop);        // where stop is requested it never begins
                throw;
            }
        }

        public async Task ReleaseRepaired(CancellationToken stop)
        {
            try
            {
                await Task.Run(() => Deploy(), stop);
                await Task.Run(() => Switch(), stop);
            }
            catch (Exception)
            {
                await Task.Run(() => Rollback());
                throw;
            }
        }

        // ---- disposal under a running task

        public Task Import()
        {
            using (var connection = Open())
            {
                return Task.Run(() => Load(connection));       // the block is left as soon as the task is made
            }
        }

        public async Task ImportRepaired()
        {
            using (var connection = Open())
            {
                await Task.Run(() => Load(connection));
            }
        }

        // ---- async void

        public async void Write() => await Task.Run(() => Save());

        public void OnClick()
        {
            try { Write(); Close(); }                          // Write comes back before it has written
            catch (Exception e) { Log(e); }
        }

        public async Task WriteRepaired() => await Task.Run(() => Save());

        public async Task OnClickRepaired()
        {
            try { await WriteRepaired(); Close(); }
            catch (Exception e) { Log(e); }
        }

        // ---- a second exception lost

        public async Task Fill()
        {
            var users  = Task.Run(() => LoadUsers());
            var orders = Task.Run(() => LoadOrders());
            try
            {
                await users;
                await orders;                                  // isn't reached where users failed
            }
            catch (Exception e) { Log(e); }
        }

        public async Task FillRepaired()
        {
            var users  = Task.Run(() => LoadUsers());
            var orders = Task.Run(() => LoadOrders());
            var both   = Task.WhenAll(users, orders);
            try { await both; }
            catch (Exception) { Log(both.Exception); }         // e would be the first alone
        }

        // ---- the team's code

        private sealed class Connection : IDisposable
        {
            public void Dispose()
            {
            }
        }

        private void Prepare()
        {
        }

        private void Save()
        {
        }

        private void SendMail()
        {
        }

        private void Confirm()
        {
        }

        private void Log(Exception thrown)
        {
        }

        private void Load(Connection connection = null)
        {
        }

        private void Close(Exception thrown = null)
        {
        }

        private void Fetch()
        {
        }

        private void Deploy()
        {
        }

        private void Switch()
        {
        }

        private void Rollback()
        {
        }

        private Connection Open() => new Connection();

        private void LoadUsers()
        {
        }

        private void LoadOrders()
        {
        }
    }
}
