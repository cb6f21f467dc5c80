using System.Threading.Tasks;

/// <summary>Code whose jobs a player plays.</summary>
public class Played
{
    public Player Player { get; set; }

    public Task Do(string job) => Player.Do(job);

    public void Sync(string job) => Player.Sync(job);

    public bool Says(string job) => Player.Says(job);
}
