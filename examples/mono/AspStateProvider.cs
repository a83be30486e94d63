// A session store provider for ASP.NET (System.Web) that keeps sessions in a state server which speaks [MS-ASP].
//
// web.config: <sessionState mode="Custom" customProvider="AspState" timeout="20">
//               <providers>
//                 <add name="AspState" type="AspStateProvider, AspStateProvider" host="127.0.0.1" port="42424"
//                      application="shop" maxConnections="24" />
//               </providers>
//             </sessionState>
//
// The key of a session is /APPLICATION/ID, so web servers with the same application name share their sessions. Connections are kept
// alive and shared by the threads of a process: a request takes one, and gives it back after its reply. `asp_state serve` serves a
// connection until its client ends it, so it needs as many workers as all web servers together hold: `maxConnections` of each.
using System;
using System.Collections.Generic;
using System.Collections.Specialized;
using System.Globalization;
using System.IO;
using System.Net.Sockets;
using System.Text;
using System.Threading;
using System.Web;
using System.Web.SessionState;

public class AspStateProvider : SessionStateStoreProviderBase
{
    sealed class Reply
    {
        public int Status;
        public readonly Dictionary<string, string> Fields = new Dictionary<string, string>(StringComparer.OrdinalIgnoreCase);
        public byte[] Body;
        public long Number(string name)
        {
            string text;
            return Fields.TryGetValue(name, out text) ? long.Parse(text, NumberStyles.None, CultureInfo.InvariantCulture) : 0;
        }
    }

    sealed class Line : IDisposable
    {
        readonly TcpClient client;
        readonly NetworkStream stream;
        readonly byte[] buffer = new byte[16384];
        int at, end;

        public Line(string host, int port)
        {
            client = new TcpClient(host, port);
            client.NoDelay = true;
            client.ReceiveTimeout = client.SendTimeout = 30000;
            stream = client.GetStream();
        }

        public Reply Ask(byte[] head, byte[] body)
        {
            var message = new byte[head.Length + (body == null ? 0 : body.Length)];
            Buffer.BlockCopy(head, 0, message, 0, head.Length);
            if (body != null) Buffer.BlockCopy(body, 0, message, head.Length, body.Length);
            stream.Write(message, 0, message.Length);
            var reply = new Reply();
            string line = ReadLine();
            if (line.Length < 12 || !line.StartsWith("HTTP/1.", StringComparison.Ordinal))
                throw new IOException("no reply of a state server: " + line);
            reply.Status = int.Parse(line.Substring(9, 3), NumberStyles.None, CultureInfo.InvariantCulture);
            while ((line = ReadLine()).Length != 0)
            {
                int colon = line.IndexOf(':');
                if (colon > 0) reply.Fields[line.Substring(0, colon)] = line.Substring(colon + 1).Trim(' ', '\t');
            }
            reply.Body = new byte[reply.Number("Content-Length")];
            for (int got = 0; got < reply.Body.Length;)
            {
                if (at == end) Fill();
                int n = Math.Min(end - at, reply.Body.Length - got);
                Buffer.BlockCopy(buffer, at, reply.Body, got, n);
                at += n;
                got += n;
            }
            return reply;
        }

        string ReadLine()
        {
            var text = new StringBuilder();
            for (;;)
            {
                if (at == end) Fill();
                byte b = buffer[at++];
                if (b == '\n') return text.ToString().TrimEnd('\r');
                if (text.Length > 8192) throw new IOException("a line of the reply is too long");
                text.Append((char)b);
            }
        }

        void Fill()
        {
            at = 0;
            end = stream.Read(buffer, 0, buffer.Length);
            if (end <= 0) { end = 0; throw new IOException("the state server ended the connection"); }
        }

        public void Dispose() { client.Close(); }
    }

    const int MaxContent = 4194304;
    static readonly Dictionary<string, Stack<Line>> pools = new Dictionary<string, Stack<Line>>();
    static readonly Dictionary<string, Semaphore> gates = new Dictionary<string, Semaphore>();
    string host = "127.0.0.1", application = "app", pool;
    int port = 42424, maxConnections = 16;
    Semaphore gate;

    public override void Initialize(string name, NameValueCollection config)
    {
        host = config["host"] ?? host;
        application = config["application"] ?? application;
        port = int.Parse(config["port"] ?? "42424", CultureInfo.InvariantCulture);
        maxConnections = int.Parse(config["maxConnections"] ?? "16", CultureInfo.InvariantCulture);
        pool = host + ":" + port;
        lock (pools)
        {
            if (!pools.ContainsKey(pool))
            {
                pools[pool] = new Stack<Line>();
                gates[pool] = new Semaphore(maxConnections, maxConnections);
            }
            gate = gates[pool];
        }
        foreach (var word in new[] { "host", "application", "port", "maxConnections" }) config.Remove(word);
        base.Initialize(name, config);
    }

    // One request and its reply. A request on a connection that was kept may find it ended by the server; it is asked again on a new one
    // where asking twice does no harm (`again`): an acquire that was answered and lost leaves a lock that runs out.
    Reply Ask(string verb, string id, string fields, byte[] body, bool again)
    {
        string target = "/" + Uri.EscapeDataString(application) + "/" + Uri.EscapeDataString(id);
        var text = new StringBuilder();
        text.Append(verb).Append(' ').Append(target).Append(" HTTP/1.1\r\nHost: ").Append(host).Append("\r\n").Append(fields);
        if (body != null) text.Append("Content-Length: ").Append(body.Length.ToString(CultureInfo.InvariantCulture)).Append("\r\n");
        byte[] head = Encoding.ASCII.GetBytes(text.Append("\r\n").ToString());
        if (!gate.WaitOne(30000)) throw new HttpException("no connection to the state server is free");
        try
        {
            for (;;)
            {
                Line line = null;
                lock (pools) { if (pools[pool].Count > 0) line = pools[pool].Pop(); }
                bool kept = line != null;
                try
                {
                    if (line == null) line = new Line(host, port);
                    Reply reply = line.Ask(head, body);
                    lock (pools) pools[pool].Push(line);
                    line = null;
                    if (reply.Status == 200 || reply.Status == 404 || reply.Status == 423) return reply;
                    throw new HttpException("the state server answered " + reply.Status + " to " + verb + " " + target);
                }
                catch (Exception e)
                {
                    if (line != null) line.Dispose();
                    if (!(e is IOException || e is SocketException)) throw;
                    if (kept && again) continue;
                    throw new HttpException("the state server cannot be asked: " + e.Message, e);
                }
            }
        }
        finally { gate.Release(); }
    }

    static byte[] Pack(SessionStateStoreData data)
    {
        var memory = new MemoryStream();
        var writer = new BinaryWriter(memory);
        writer.Write(data.Timeout);
        var items = data.Items as SessionStateItemCollection;
        bool any = items != null && items.Count > 0;
        writer.Write(any);
        if (any) items.Serialize(writer);
        writer.Flush();
        return memory.ToArray();
    }

    static SessionStateStoreData Unpack(HttpContext context, byte[] bytes, int minutes)
    {
        var items = new SessionStateItemCollection();
        if (bytes.Length > 0)
        {
            var reader = new BinaryReader(new MemoryStream(bytes));
            reader.ReadInt32();
            if (reader.ReadBoolean()) items = SessionStateItemCollection.Deserialize(reader);
        }
        return new SessionStateStoreData(items, SessionStateUtility.GetSessionStaticObjects(context), minutes);
    }

    SessionStateStoreData Get(HttpContext context, string id, string fields, out bool locked, out TimeSpan age, out object cookie,
        out SessionStateActions actions)
    {
        locked = false;
        age = TimeSpan.Zero;
        cookie = null;
        actions = SessionStateActions.None;
        if (id == null) return null; // (Mono's module asks so where the browser sent no cookie)
        Reply reply = Ask("GET", id, fields, null, true);
        if (reply.Status == 404) return null;
        cookie = reply.Number("LockCookie");
        if (reply.Status == 423)
        {
            locked = true;
            age = TimeSpan.FromSeconds(reply.Number("LockAge"));
            return null;
        }
        if (reply.Number("ActionFlags") == 1) actions = SessionStateActions.InitializeItem;
        return Unpack(context, reply.Body, (int)reply.Number("Timeout"));
    }

    public override SessionStateStoreData GetItem(HttpContext context, string id, out bool locked, out TimeSpan lockAge,
        out object lockId, out SessionStateActions actions)
    {
        return Get(context, id, "", out locked, out lockAge, out lockId, out actions);
    }

    public override SessionStateStoreData GetItemExclusive(HttpContext context, string id, out bool locked, out TimeSpan lockAge,
        out object lockId, out SessionStateActions actions)
    {
        return Get(context, id, "Exclusive: acquire\r\n", out locked, out lockAge, out lockId, out actions);
    }

    static string Cookie(object lockId)
    {
        return lockId == null ? "" : "LockCookie: " + Convert.ToString(lockId, CultureInfo.InvariantCulture) + "\r\n";
    }

    public override void ReleaseItemExclusive(HttpContext context, string id, object lockId)
    {
        // (Mono's module hands in 0 for a page that read without a lock.)
        if (lockId == null || Convert.ToInt64(lockId, CultureInfo.InvariantCulture) == 0) return;
        Ask("GET", id, "Exclusive: release\r\n" + Cookie(lockId), null, true);
    }

    public override void SetAndReleaseItemExclusive(HttpContext context, string id, SessionStateStoreData item, object lockId, bool newItem)
    {
        byte[] body = Pack(item);
        if (body.Length > MaxContent)
        {
            // The state server would refuse it and the lock would stay until it is older than a page may run.
            if (!newItem) ReleaseItemExclusive(context, id, lockId);
            throw new HttpException("a session of " + body.Length + " bytes is too long for the state server");
        }
        Reply reply = Ask("PUT", id, "Timeout: " + item.Timeout.ToString(CultureInfo.InvariantCulture) + "\r\n"
            + (newItem ? "" : Cookie(lockId)), body, false);
        if (reply.Status != 200) LostLock(context, id, reply.Status);
    }

    // The page's lock was released by force or its session is gone: what it wrote is dropped, as the state server of ASP.NET does.
    protected virtual void LostLock(HttpContext context, string id, int status)
    {
        Console.Error.WriteLine("AspStateProvider: a page lost its lock on {0}: {1}", id, status);
    }

    public override void RemoveItem(HttpContext context, string id, object lockId, SessionStateStoreData item)
    {
        Ask("DELETE", id, Cookie(lockId), null, false);
    }

    public override void ResetItemTimeout(HttpContext context, string id)
    {
        Ask("HEAD", id, "", null, true);
    }

    public override SessionStateStoreData CreateNewStoreData(HttpContext context, int timeout)
    {
        return new SessionStateStoreData(new SessionStateItemCollection(), SessionStateUtility.GetSessionStaticObjects(context), timeout);
    }

    public override void CreateUninitializedItem(HttpContext context, string id, int timeout)
    {
        Ask("PUT", id, "Timeout: " + timeout.ToString(CultureInfo.InvariantCulture) + "\r\nExtraFlags: 1\r\n",
            Pack(CreateNewStoreData(context, timeout)), true);
    }

    public override bool SetItemExpireCallback(SessionStateItemExpireCallback expireCallback) { return false; }
    public override void InitializeRequest(HttpContext context) { }
    public override void EndRequest(HttpContext context) { }
    public override void Dispose() { }
}
