using System;
using System.Threading.Tasks;

/// <summary>Async methods as teams write them; the document of each stands beside it.</summary>
public sealed class Methods : Played
{
    public async Task Canceled()
    {
        try { await Job("Load", true, Stop); }
        catch (OperationCanceledException) { Do("note"); }
        catch (Exception) { Do("log"); throw; }
        await Job("Save");
    }

    public async Task Early()
    {
        try
        {
            await Job("Load");
            if (Input("nothing_new")) return;
            await Job("Save");
        }
        finally { await Job("Close"); }
        await Job("Send");
    }

    public async Task Exists()
    {
        await Job("Look");
        if (Input("exists")) await Job("Update"); else { await Job("Insert"); await Job("Index"); }
        Do("done");
    }

    public async Task Handle()
    {
        try { await Job("Load"); await Job("Save"); }
        catch (Exception) { Do("log"); }
        finally { Do("close"); }
    }

    public async Task Nested()
    {
        try
        {
            try { await Job("A"); }
            finally { await Job("B"); }
            await Job("C");
        }
        catch (Exception) { await Job("D"); }
        Do("done");
    }

    public async Task Retry()
    {
        for (int attempt = 1; ; attempt++)
        {
            try { await Job("Send" + attempt); break; }
            catch (Exception) when (attempt < 3) { }
        }
        await Job("Save");
    }

    public async Task Seq() { await Job("Load"); await Job("Save"); }

    public async Task Show()
    {
        await Task.WhenAll(Job("Users"), Job("Prices"));
        await Job("Send");
    }

    public async Task Timeout()
    {
        var load = Job("Load"); var delay = Job("Delay", false);
        if (await Task.WhenAny(load, delay) == delay) throw new TimeoutException();
        await load;
        await Job("Save");
    }

    public async Task Using()
    {
        await Job("Open");
        try { await Job("Load"); }
        finally { await Job("Dispose"); }
        await Job("Send");
    }
}
