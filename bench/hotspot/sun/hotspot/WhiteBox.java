package sun.hotspot;

import java.lang.reflect.Executable;

/** The few calls into HotSpot that Stops makes; HotSpot finds them by this class's name, and by theirs. */
public class WhiteBox {
    static {
        registerNatives();
    }

    private static native void registerNatives();

    public native void forceSafepoint();

    public native void forceNMethodSweep();

    private native void clearMethodState0(Executable method);

    private native boolean enqueueMethodForCompilation0(Executable method, int level, int entry);

    private native boolean isMethodCompiled0(Executable method, boolean inLoop);

    private native int deoptimizeMethod0(Executable method, boolean inLoop);

    /** Asks for the method's code by the compiler that optimizes. */
    public void compile(Executable method) {
        clearMethodState0(method);
        enqueueMethodForCompilation0(method, 4, -1);
    }

    public boolean isCompiled(Executable method) {
        return isMethodCompiled0(method, false);
    }

    /** Nobody enters the method's code from now on. */
    public void invalidate(Executable method) {
        deoptimizeMethod0(method, false);
    }
}
