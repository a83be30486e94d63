<%@ Page Language="C#" EnableSessionState="false" %><%
Response.ContentType = "text/plain";
Response.Write("no session\n");
%>
