with Ada.Finalization; with Ada.Text_IO; with Ada.Unchecked_Deallocation;
procedure Main is
   type Page is record Words : Integer := 0; end record;
   type Sheet is access Page;
   procedure Free is new Ada.Unchecked_Deallocation (Page, Sheet);
   type Letter is new Ada.Finalization.Controlled with record Front : Sheet; end record;
   overriding procedure Adjust (Object : in out Letter);
   overriding procedure Finalize (Object : in out Letter);
   type Envelope;
   type Link is access Envelope;
   type Envelope is record Inside : Letter; Next : Link; end record;
   overriding procedure Adjust (Object : in out Letter) is
   begin
      Object.Front := new Page'(Words => Object.Front.Words);
   exception
      when others => Object.Front := null;
   end Adjust;
   overriding procedure Finalize (Object : in out Letter) is
   begin
      Free (Object.Front);
   end Finalize;
   Top  : Link := new Envelope;
   Sent : Letter;
begin
   Top.Next := new Envelope;
   Sent.Front := new Page'(Words => 7);
   Top.Next.Inside := Sent;
   Ada.Text_IO.Put_Line (Integer'Image (Top.Next.Inside.Front.Words));
end Main;
