// State machines and lambdas as Roslyn's compiler writes them (release: a struct, the state in a local, the awaiter in a local), lowered by hand:
// there is no Roslyn here. roslyn.py gives the names their angle brackets in the compiled file: Q1 is '<', Z1 is '>' in names of the same length.
using System;
using System.Runtime.CompilerServices;
using System.Threading;
using System.Threading.Tasks;

public class Roslyn
{
    public virtual Task Do(string s)
    {
        return Task.Delay(1);
    }

    public Task Load()
    {
        return Do("Load");
    }

    public Task Save()
    {
        return Do("Save");
    }

    public Task Undo()
    {
        return Do("Undo");
    }

    public Task Audit()
    {
        return Do("Audit");
    }

    public virtual void Log(Exception e)
    {
    }

    public virtual void Close()
    {
    }

    public virtual void Check()
    {
    }

    // await Load(); await Save();
    public Task Import()
    {
        QImportZd__0 sm = default(QImportZd__0);
        sm.QZt__builder = AsyncTaskMethodBuilder.Create();
        sm.QZ4__this = this;
        sm.QZ1__state = -1;
        sm.QZt__builder.Start(ref sm);
        return sm.QZt__builder.Task;
    }

    private struct QImportZd__0 : IAsyncStateMachine
    {
        public int QZ1__state;
        public AsyncTaskMethodBuilder QZt__builder;
        public Roslyn QZ4__this;
        private TaskAwaiter QZu__1;
        public void MoveNext()
        {
            int num = QZ1__state;
            Roslyn team = QZ4__this;
            try
            {
                TaskAwaiter awaiter;
                if (num != 0)
                {
                    if (num == 1)
                    {
                        awaiter = QZu__1;
                        QZu__1 = default(TaskAwaiter);
                        num = (QZ1__state = -1);
                        goto IL_00c8;
                    }
                    awaiter = team.Load().GetAwaiter();
                    if (!awaiter.IsCompleted)
                    {
                        num = (QZ1__state = 0);
                        QZu__1 = awaiter;
                        QZt__builder.AwaitUnsafeOnCompleted(ref awaiter, ref this);
                        return;
                    }
                }
                else
                {
                    awaiter = QZu__1;
                    QZu__1 = default(TaskAwaiter);
                    num = (QZ1__state = -1);
                }
                awaiter.GetResult();
                awaiter = team.Save().GetAwaiter();
                if (!awaiter.IsCompleted)
                {
                    num = (QZ1__state = 1);
                    QZu__1 = awaiter;
                    QZt__builder.AwaitUnsafeOnCompleted(ref awaiter, ref this);
                    return;
                }
                IL_00c8: awaiter.GetResult();
            }
            catch (Exception ex)
            {
                QZ1__state = -2;
                QZt__builder.SetException(ex);
                return;
            }
            QZ1__state = -2;
            QZt__builder.SetResult();
        }
        public void SetStateMachine(IAsyncStateMachine m)
        {
            QZt__builder.SetStateMachine(m);
        }
    }

    // try { await Load(); await Save(); } catch (Exception e) { Log(e); } finally { Close(); }
    public Task Handle()
    {
        QHandleZd__1 sm = default(QHandleZd__1);
        sm.QZt__builder = AsyncTaskMethodBuilder.Create();
        sm.QZ4__this = this;
        sm.QZ1__state = -1;
        sm.QZt__builder.Start(ref sm);
        return sm.QZt__builder.Task;
    }

    private struct QHandleZd__1 : IAsyncStateMachine
    {
        public int QZ1__state;
        public AsyncTaskMethodBuilder QZt__builder;
        public Roslyn QZ4__this;
        private TaskAwaiter QZu__1;
        public void MoveNext()
        {
            int num = QZ1__state;
            Roslyn team = QZ4__this;
            try
            {
                if ((uint)num > 1u)
                {
                }
                try
                {
                    if ((uint)num > 1u)
                    {
                    }
                    try
                    {
                        TaskAwaiter awaiter;
                        if (num != 0)
                        {
                            if (num == 1)
                            {
                                awaiter = QZu__1;
                                QZu__1 = default(TaskAwaiter);
                                num = (QZ1__state = -1);
                                goto IL_00d0;
                            }
                            awaiter = team.Load().GetAwaiter();
                            if (!awaiter.IsCompleted)
                            {
                                num = (QZ1__state = 0);
                                QZu__1 = awaiter;
                                QZt__builder.AwaitUnsafeOnCompleted(ref awaiter, ref this);
                                return;
                            }
                        }
                        else
                        {
                            awaiter = QZu__1;
                            QZu__1 = default(TaskAwaiter);
                            num = (QZ1__state = -1);
                        }
                        awaiter.GetResult();
                        awaiter = team.Save().GetAwaiter();
                        if (!awaiter.IsCompleted)
                        {
                            num = (QZ1__state = 1);
                            QZu__1 = awaiter;
                            QZt__builder.AwaitUnsafeOnCompleted(ref awaiter, ref this);
                            return;
                        }
                        IL_00d0: awaiter.GetResult();
                    }
                    catch (Exception e)
                    {
                        team.Log(e);
                    }
                }
                finally
                {
                    if (num < 0)
                    {
                        team.Close();
                    }
                }
            }
            catch (Exception ex)
            {
                QZ1__state = -2;
                QZt__builder.SetException(ex);
                return;
            }
            QZ1__state = -2;
            QZt__builder.SetResult();
        }
        public void SetStateMachine(IAsyncStateMachine m)
        {
            QZt__builder.SetStateMachine(m);
        }
    }

    // await Load(); try { await Save(); } catch (Exception) { await Undo(); } finally { await Audit(); }    (debug: a class, all variables are fields)
    public Task Update()
    {
        QUpdateZd__2 sm = new QUpdateZd__2();
        sm.QZt__builder = AsyncTaskMethodBuilder.Create();
        sm.QZ4__this = this;
        sm.QZ1__state = -1;
        sm.QZt__builder.Start(ref sm);
        return sm.QZt__builder.Task;
    }

    private sealed class QUpdateZd__2 : IAsyncStateMachine
    {
        public int QZ1__state;
        public AsyncTaskMethodBuilder QZt__builder;
        public Roslyn QZ4__this;
        private object QZs__1;
        private int QZs__2;
        private int QZs__4;
        private TaskAwaiter QZu__1;
        public void MoveNext()
        {
            int num = QZ1__state;
            try
            {
                TaskAwaiter awaiter4;
                TaskAwaiter awaiter;
                object obj;
                switch (num)
                {
                    default: awaiter4 = QZ4__this.Load().GetAwaiter();
                    if (!awaiter4.IsCompleted)
                    {
                        num = (QZ1__state = 0);
                        QZu__1 = awaiter4;
                        var stateMachine = this;
                        QZt__builder.AwaitUnsafeOnCompleted(ref awaiter4, ref stateMachine);
                        return;
                    }
                    goto IL_009b;
                    case 0: awaiter4 = QZu__1;
                    QZu__1 = default(TaskAwaiter);
                    num = (QZ1__state = -1);
                    goto IL_009b;
                    case 1: case 2: break;
                    case 3: awaiter = QZu__1;
                    QZu__1 = default(TaskAwaiter);
                    num = (QZ1__state = -1);
                    goto IL_0200;
                }
                goto IL_00b0;
                IL_009b: awaiter4.GetResult();
                QZs__1 = null;
                QZs__2 = 0;
                IL_00b0: try
                {
                    TaskAwaiter awaiter2;
                    if (num != 1)
                    {
                        if (num == 2)
                        {
                            awaiter2 = QZu__1;
                            QZu__1 = default(TaskAwaiter);
                            num = (QZ1__state = -1);
                            goto IL_0190;
                        }
                        QZs__4 = 0;
                    }
                    try
                    {
                        TaskAwaiter awaiter3;
                        if (num != 1)
                        {
                            awaiter3 = QZ4__this.Save().GetAwaiter();
                            if (!awaiter3.IsCompleted)
                            {
                                num = (QZ1__state = 1);
                                QZu__1 = awaiter3;
                                var stateMachine = this;
                                QZt__builder.AwaitUnsafeOnCompleted(ref awaiter3, ref stateMachine);
                                return;
                            }
                        }
                        else
                        {
                            awaiter3 = QZu__1;
                            QZu__1 = default(TaskAwaiter);
                            num = (QZ1__state = -1);
                        }
                        awaiter3.GetResult();
                    }
                    catch (Exception)
                    {
                        QZs__4 = 1;
                    }
                    int num2 = QZs__4;
                    if (num2 == 1)
                    {
                        awaiter2 = QZ4__this.Undo().GetAwaiter();
                        if (!awaiter2.IsCompleted)
                        {
                            num = (QZ1__state = 2);
                            QZu__1 = awaiter2;
                            var stateMachine = this;
                            QZt__builder.AwaitUnsafeOnCompleted(ref awaiter2, ref stateMachine);
                            return;
                        }
                        goto IL_0190;
                    }
                    goto IL_0198;
                    IL_0190: awaiter2.GetResult();
                    IL_0198: ;
                }
                catch (Exception obj2)
                {
                    obj = (QZs__1 = obj2);
                }
                awaiter = QZ4__this.Audit().GetAwaiter();
                if (!awaiter.IsCompleted)
                {
                    num = (QZ1__state = 3);
                    QZu__1 = awaiter;
                    var stateMachine = this;
                    QZt__builder.AwaitUnsafeOnCompleted(ref awaiter, ref stateMachine);
                    return;
                }
                IL_0200: awaiter.GetResult();
                obj = QZs__1;
                if (obj != null)
                {
                    Exception obj3 = obj as Exception;
                    if (obj3 == null)
                    {
                        throw new Exception();
                    }
                    System.Runtime.ExceptionServices.ExceptionDispatchInfo.Capture(obj3).Throw();
                }
                int s2 = QZs__2;
                QZs__1 = null;
            }
            catch (Exception ex)
            {
                QZ1__state = -2;
                QZt__builder.SetException(ex);
                return;
            }
            QZ1__state = -2;
            QZt__builder.SetResult();
        }
        public void SetStateMachine(IAsyncStateMachine m)
        {
        }
    }

    // var a = Task.Run(() => Check()) that captures nothing but this; a static lambda; a captured variable
    public Task Lambdas(CancellationToken stop)
    {
        var c = new QZc__DisplayClass3_0();
        c.QZ4__this = this;
        c.stop = stop;
        Task load = Task.Run(new Action(c.QLambdasZb__0), c.stop);
        Task next = load.ContinueWith(QZc.QZ9__3_1 ?? (QZc.QZ9__3_1 = new Action<Task>(QZc.QZ9.QLambdasZb__3_1)), TaskContinuationOptions.OnlyOnFaulted);
        return Task.WhenAll(load, next);
    }

    private sealed class QZc__DisplayClass3_0
    {
        public Roslyn QZ4__this;
        public CancellationToken stop;
        internal void QLambdasZb__0()
        {
            stop.ThrowIfCancellationRequested();
            QZ4__this.Check();
        }
    }

    private sealed class QZc
    {
        public static readonly QZc QZ9 = new QZc();
        public static Action<Task> QZ9__3_1;
        internal void QLambdasZb__3_1(Task t)
        {
            Tell(t.Exception);
        }
    }

    public static void Tell(Exception e)
    {
    }
}
