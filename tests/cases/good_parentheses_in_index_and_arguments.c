int a = b[(c)], d = b[(c + e)][(f)], g = h((c), (d + e), ((f))), i = h((c = d), (e ? f : g)), j = h(((c, d)));
int k = (b)[(c)]((d))[(e)], l = (h(c))(d), m = (*h)((c)), n = b[c = d], o = b[c ? d : e], p = h((int) (c), (d));
