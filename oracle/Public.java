// Public ANTLR's Java runtime 4.7.2, asked as the oracle is: a word list to a line of standard input, its network on a line
// of standard output, in the oracle's text form (`dump` in src/lib.rs), or the class of its exception.
//     java -cp antlr4-runtime-4.7.2.jar oracle/Public.java          (Java 17 or later)
// That runtime reads serialized version 3, which is characters. The words are rewritten as such; a list that is cut, or has
// a word with no version-3 form, is answered SKIP.
import java.util.*;
import org.antlr.v4.runtime.atn.*;
import org.antlr.v4.runtime.misc.Interval;

class Public {
    static class NoForm extends RuntimeException {}
    // The format with 32-bit sets, ADDED_UNICODE_SMP in the runtime: 59627784-3BE5-417A-B9EB-8131A7286089, low half first.
    static final int[] FORMAT = {0x6089, 0xA728, 0x8131, 0xB9EB, 0x417A, 0x3BE5, 0x7784, 0x5962};

    final int[] words;
    final List<Integer> out = new ArrayList<>();
    int at = 2;
    Public(int[] words) { this.words = words; }
    int next() { if (at == words.length) throw new NoForm(); return words[at++]; }

    // One word as one character. Version 3 writes none as 65535; only a state's rule may be none here.
    int put(boolean mayBeNone) {
        int word = next();
        if (word < (mayBeNone ? -1 : 0) || word > 0xFFFE) throw new NoForm();
        out.add(word & 0xFFFF);
        return word;
    }

    void putHalves(int word) { out.addAll(List.of(word & 0xFFFF, word >>> 16)); }
    void list(int each) { for (int n = put(false) * each; n > 0; n--) put(false); }

    char[] rewritten() {
        if (words.length < 2 || words[0] != 4 || words[1] != 0) throw new NoForm();
        out.add(3);
        for (int part : FORMAT) out.add(part);
        out.add(0);
        put(false);
        for (int n = put(false); n > 0; n--) {
            int kind = put(false);
            if (kind != 0) put(true);
            if (kind >= 3 && kind <= 5 || kind == 12) put(false);
        }
        for (int each : new int[] {1, 1, 2, 1}) list(each);  // non-greedy, precedence, rules, modes
        out.add(0);  // no 16-bit sets: all stand among the 32-bit ones, which come next
        for (int n = put(false); n > 0; n--) {
            int intervals = put(false);
            put(false);
            for (int ends = 2 * intervals; ends > 0; ends--) putHalves(next());
        }
        for (int each : new int[] {6, 1, 3}) list(each);  // edges, decisions, actions
        char[] chars = new char[out.size()];
        // each but the first stands two higher, as the tool writes them
        for (int i = 0; i < chars.length; i++) chars[i] = (char) (out.get(i) + (i == 0 ? 0 : 2));
        return chars;
    }

    static int number(ATNState state) { return state == null ? -1 : state.stateNumber; }
    static int bit(boolean holds, int bit) { return holds ? bit : 0; }
    static String ranges(List<Interval> all) { return "{" + String.join(",", all.stream().map(i -> i.a + ".." + i.b).toList()) + "}"; }

    static String edge(Transition t) {
        String p = "0";
        int q = 0, r = 0;
        if (t instanceof RangeTransition x) { p = "" + x.from; q = x.to; }
        if (t instanceof RuleTransition x) { p = "" + x.ruleIndex; q = number(x.followState); r = x.precedence; }
        if (t instanceof PredicateTransition x) { p = "" + x.ruleIndex; q = x.predIndex; r = bit(x.isCtxDependent, 1); }
        if (t instanceof AtomTransition x) p = "" + x.label;
        if (t instanceof ActionTransition x) { p = "" + x.ruleIndex; q = x.actionIndex; r = bit(x.isCtxDependent, 1); }
        if (t instanceof SetTransition x) p = ranges(x.set.getIntervals());
        if (t instanceof PrecedencePredicateTransition x) p = "" + x.precedence;
        return " ( %d %d %s %d %d 0 )".formatted(t.getSerializationType(), number(t.target), p, q, r);
    }

    static String action(LexerAction a) {
        int d1 = 0, d2 = 0;
        if (a instanceof LexerChannelAction x) d1 = x.getChannel();
        if (a instanceof LexerCustomAction x) { d1 = x.getRuleIndex(); d2 = x.getActionIndex(); }
        if (a instanceof LexerModeAction x) d1 = x.getMode();
        if (a instanceof LexerPushModeAction x) d1 = x.getMode();
        if (a instanceof LexerTypeAction x) d1 = x.getType();
        return " A %d %d %d".formatted(a.getActionType().ordinal(), d1, d2);
    }

    static String network(ATN atn) {
        StringBuilder line = new StringBuilder("OK " + atn.maxTokenType);
        for (ATNState s : atn.states) {
            int end = s instanceof BlockStartState x ? number(x.endState) : -1;
            int back = s instanceof LoopEndState x ? number(x.loopBackState) : -1;
            int flags = bit(s instanceof DecisionState x && x.nonGreedy, 1) | bit(s instanceof RuleStartState x && x.isLeftRecursiveRule, 2)
                | bit(s instanceof StarLoopEntryState x && x.isPrecedenceDecision, 4);
            line.append(" S %d %d %d %d %d [".formatted(s.getStateType(), s.ruleIndex, end, back, flags));
            for (Transition t : s.getTransitions()) line.append(edge(t));
            line.append(" ]");
        }
        for (int i = 0; i < atn.ruleToStartState.length; i++)
            line.append(" R %d %d %d".formatted(number(atn.ruleToStartState[i]), number(atn.ruleToStopState[i]), atn.ruleToTokenType[i]));
        for (ATNState s : atn.modeToStartState) line.append(" M " + number(s));
        for (ATNState s : atn.decisionToState) line.append(" D " + number(s));
        for (LexerAction a : atn.lexerActions) line.append(action(a));
        return line.toString();
    }

    public static void main(String[] args) {
        for (Scanner in = new Scanner(System.in); in.hasNextLine();) {
            String[] words = in.nextLine().split(" ");
            System.out.println(said(Arrays.stream(words).filter(w -> !w.isEmpty()).mapToInt(Integer::parseInt).toArray()));
        }
    }

    static String said(int[] words) {
        try {
            return network(new ATNDeserializer().deserialize(new Public(words).rewritten()));
        } catch (NoForm none) {
            return "SKIP";
        } catch (RuntimeException error) {
            return "ERR " + error.getClass().getSimpleName();
        }
    }
}
