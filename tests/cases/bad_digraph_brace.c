void f(void) <% %>
