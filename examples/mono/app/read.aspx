<%@ Page Language="C#" EnableSessionState="ReadOnly" EnableViewState="false" %><%
// Reads the session's number.
object n = Session["n"];
if (Request["ms"] != null) System.Threading.Thread.Sleep(int.Parse(Request["ms"]));
Response.ContentType = "text/plain";
Response.Write("n=" + n + "\n");
%>
