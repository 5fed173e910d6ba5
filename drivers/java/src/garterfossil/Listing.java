package garterfossil;

import java.util.ArrayList;
import java.util.List;

/**
 * What a resource lists of branches in doubt, of managers of whatever names; or why nobody knows
 * (fault).
 */
record Listing(Resource resource, List<BranchXid> all, String fault) {
    /** Something that is done over a connection of its own. */
    interface Work<T> {
        T over(Link link) throws Fault.Lost;
    }

    /** What a resource lists. */
    static Listing of(Resource resource) {
        try {
            return new Listing(resource, apart(resource, link -> Calls.listed(link.xaResource())), null);
        } catch (Fault | RuntimeException error) {
            return new Listing(resource, new ArrayList<>(), error.getMessage());
        }
    }

    /**
     * Has something done at a resource, and nothing else: no connections of others are ended, and
     * its own isn't taken for one of the manager's.
     */
    static <T> T apart(Resource resource, Work<T> work) throws Fault.Lost {
        Link link = new ResourceManager(0, resource, false).connect(resource.patience());
        try {
            link.bound(resource.patience());
            return work.over(link);
        } finally {
            link.close();
        }
    }
}
